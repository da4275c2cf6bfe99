/* Wrong: sum=-n is sum =- n, which takes n away. */
/* Told: wrote  4 -100 -25 */
main() {
    auto n, count, sum;

    count = sum = 0;
    while(getnum(&n)) {
        count++;
        sum=-n;
    }
    printn(count, 10);
    putchar(' ');
    printn(sum, 10);
    putchar(' ');
    printn(count ? sum / count : 0, 10);
    putchar('*n');
}
