main() {
    auto x;
    x = !;
    putchar(x);
}
