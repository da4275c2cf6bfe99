main() putchar('hi!');
