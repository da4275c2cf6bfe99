main() {
    auto a;
    a == 3
    putchar(a + '0');
}
