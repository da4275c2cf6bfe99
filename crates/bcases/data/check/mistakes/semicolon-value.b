main() {
    auto x;
    x =
        'a'
    putchar(x);
}
