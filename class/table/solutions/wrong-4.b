/* Wrong: the } is a line too far, so each number has a line. */
/* Told: wrote  9 */
main() {
    auto n, i;

    n = getchar() - '0';
    i = 1;
    while(i <= 5) {
        printn(n * i, 10);
        putchar(' ');
        i++;
        putchar('*n');
    }
}
