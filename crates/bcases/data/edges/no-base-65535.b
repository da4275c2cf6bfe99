main() { putchar('a'); printn(5, 65535); putchar('b'); }
