main() {
    putchar('*N');
}
