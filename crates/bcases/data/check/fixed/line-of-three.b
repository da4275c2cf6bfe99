main() {
    auto a, b;
    a = 1 b = 2 putchar(a + b + '0');
}
