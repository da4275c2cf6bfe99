main() {
    printn(1 + 2 * 3, 10); putchar(' ');
    printn(10 - 4 - 3, 10); putchar(' ');
    printn(1 << 2 + 1, 10); putchar(' ');
    printn(6 & 3 == 3, 10);
}
