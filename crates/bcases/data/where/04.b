main() putchar('a');
