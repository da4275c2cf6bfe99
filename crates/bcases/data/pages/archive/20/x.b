main() { repeat { putchar('r'); exit(); } }
