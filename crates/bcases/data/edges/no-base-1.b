main() { putchar('a'); printn(5, 1); putchar('b'); }
