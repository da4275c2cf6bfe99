main() {
    putchar('a');
}
