main() {
    putchar('x');
    exit(3);
}
