/* Wrong: i begins with 0, so there are six numbers. */
/* Told: wrote  0 9 18 27 36 45 */
main() {
    auto n, i;

    n = getchar() - '0';
    i = 0;
    while(i <= 5) {
        printn(n * i, 10);
        putchar(' ');
        i++;
    }
    putchar('*n');
}
