main() putchar('hi');
