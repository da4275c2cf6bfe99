main() putchar(040040);
