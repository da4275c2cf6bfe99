main() {
    putchar('a');
}
