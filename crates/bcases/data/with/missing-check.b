main() putchar(getchar());
