main() { putchar('a'); printn(5, 16); putchar('b'); }
