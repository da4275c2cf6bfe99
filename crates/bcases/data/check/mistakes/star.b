main() {
    putchar('*');
    putchar('*n');
}
