/* Wrong: getnum gets the number n, and not the address of n. */
/* Told: wrote  4 0 0 */
main() {
    auto n, count, sum;

    count = sum = n = 0;
    while(getnum(n)) {
        count++;
        sum =+ n;
    }
    printn(count, 10);
    putchar(' ');
    printn(sum, 10);
    putchar(' ');
    printn(count ? sum / count : 0, 10);
    putchar('*n');
}
