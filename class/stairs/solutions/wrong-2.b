/* Wrong: the stair begins at the left. */
/* Told: wrote  * */
main() {
    auto steps, row, i;

    steps = getchar() - '0';
    row = 1;
    while(row <= steps) {
        i = 0;
        while(i < row) {
            putchar('**');
            i++;
        }
        putchar('*n');
        row++;
    }
}
