main() putchar('m');
