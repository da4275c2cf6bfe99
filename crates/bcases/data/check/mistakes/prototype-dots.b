main() {
    int printf(char *format, ...);
    putchar('a');
}
