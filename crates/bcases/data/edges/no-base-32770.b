main() { putchar('a'); printn(5, 32770); putchar('b'); }
