main() {
    auto x;
    x = 1 /* one;
    putchar(x);
}
