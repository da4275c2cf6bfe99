main() {
    putchar('a'
