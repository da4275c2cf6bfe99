main() {
    putchar('a'); /* one *n/
    putchar('b');
}
