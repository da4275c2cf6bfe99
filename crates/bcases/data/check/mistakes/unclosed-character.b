main() {
    putchar('ab);
}
