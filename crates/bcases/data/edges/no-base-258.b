main() { putchar('a'); printn(5, 258); putchar('b'); }
