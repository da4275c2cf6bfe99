main() putchar('a');
/* open