main() {
    putchar('abc');
}
