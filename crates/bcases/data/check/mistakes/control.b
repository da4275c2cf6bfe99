main() {
    putchar('');
}
