main() {
    printn(32767 + 1, 10); putchar(' ');
    printn(-7 / 2, 10); putchar(' ');
    printn(-7 % 2, 10); putchar(' ');
    printn((1 << 15) > 5, 10); putchar(' ');
    printn(-1 >> 15, 10); putchar(' ');
    printn(1 << 16, 10); putchar(' ');
    printn(6 & 3, 10); putchar(' ');
    printn(6 | 3, 10); putchar(' ');
    printn(!6, 10);
}
