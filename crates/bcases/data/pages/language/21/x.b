main() 1 ? putchar('t') : putchar('f');
