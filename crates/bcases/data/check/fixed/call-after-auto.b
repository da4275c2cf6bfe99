main() {
    auto a, b putchar('k');
    a = b = 1;
    printn(a + b, 10);
}
