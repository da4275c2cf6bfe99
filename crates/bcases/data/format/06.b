main() putchar(65);
