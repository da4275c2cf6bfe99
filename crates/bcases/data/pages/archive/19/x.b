main() { start: putchar('m'); }
