/* Wrong: % gives the days that are left, and not the weeks. */
/* Told: wrote  6 */
main() {
    printn(7 * 24 * 60, 10);
    putchar('*n');
    printn(60 * 60, 10);
    putchar('*n');
    printn(1000 % 7, 10);
    putchar('*n');
}
