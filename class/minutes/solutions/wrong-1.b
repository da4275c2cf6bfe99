/* Wrong: there is no newline between the numbers. */
/* Told: wrote  100803600142 */
main() {
    printn(7 * 24 * 60, 10);
    printn(60 * 60, 10);
    printn(1000 / 7, 10);
    putchar('*n');
}
