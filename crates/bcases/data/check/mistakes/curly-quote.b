main() {
    putchar(‘a’);
}
