main() {
    putchar('a');
