main() {
    auto x;
    x = 1
    putchar('a');
}
