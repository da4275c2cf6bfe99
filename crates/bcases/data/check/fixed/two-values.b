main() {
    auto a, b;
    a = b = 2;
    a = a b;
    putchar(a)
}
