start: main() {
    putchar('a');
}
