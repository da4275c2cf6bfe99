main() { putchar('a'); printn(5, 0); putchar('b'); }
