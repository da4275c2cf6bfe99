main() {
    putchar('');
}
