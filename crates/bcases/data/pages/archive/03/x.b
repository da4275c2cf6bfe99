main() { putchar('hi'); putchar('!'); }
