main() { putchar('a'); printn(5, 11); putchar('b'); }
