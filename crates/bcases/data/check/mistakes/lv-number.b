main() {
    auto n;
    n = 3;
    putchar(1 = n);
}
