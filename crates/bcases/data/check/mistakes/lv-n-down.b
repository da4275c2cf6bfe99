main() {
    putchar('a');
    n--;
}
