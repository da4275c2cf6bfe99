main() { printn(6 * 7, 10); putchar('*n'); }
