public main() {
    putchar('a');
}
