/* Wrong: the digit itself isn't added. */
/* Told: wrote  36 */
main() {
    auto n, i, sum;

    n = getchar() - '0';
    i = 1;
    sum = 0;
    while(i < n) {
        sum = sum + i;
        i++;
    }
    printn(sum, 10);
    putchar('*n');
}
