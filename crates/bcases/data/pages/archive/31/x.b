main() putchar('w');
