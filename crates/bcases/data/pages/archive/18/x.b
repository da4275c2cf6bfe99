start: main() { putchar('m'); }
