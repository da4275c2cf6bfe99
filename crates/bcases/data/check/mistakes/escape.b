main() {
    putchar('*q');
}
