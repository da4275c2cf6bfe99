main() {
    putchar(a);
}
