/* Wrong: the second printn has no base. */
/* Told: printn takes another number of arguments */
main() {
    printn(7 * 24 * 60, 10);
    putchar('*n');
    printn(60 * 60);
    putchar('*n');
    printn(1000 / 7, 10);
    putchar('*n');
}
