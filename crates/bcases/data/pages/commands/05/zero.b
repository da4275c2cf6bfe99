main() { putchar('a'); printn(1 / 0, 10); }
