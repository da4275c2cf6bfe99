/* Wrong: there is no ; after the second printn. */
/* Told: has no ; at its end */
main() {
    printn(7 * 24 * 60, 10);
    putchar('*n');
    printn(60 * 60, 10)
    putchar('*n');
    printn(1000 / 7, 10);
    putchar('*n');
}
