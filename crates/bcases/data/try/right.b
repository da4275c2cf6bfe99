main() {
    putchar('a');
    putchar('*n');
}
