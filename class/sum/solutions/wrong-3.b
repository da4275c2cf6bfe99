/* Wrong: the last number counts twice, since getnum leaves n as it is at the end. */
/* Told: wrote  1 0 0 */
main() {
    auto n, count, sum, more;

    count = sum = 0;
    more = 1;
    n = 0;
    while(more) {
        more = getnum(&n);
        count++;
        sum =+ n;
    }
    printn(count, 10);
    putchar(' ');
    printn(sum, 10);
    putchar(' ');
    printn(count ? sum / count : 0, 10);
    putchar('*n');
}
