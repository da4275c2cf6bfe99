main() {
    auto x;
    x = 4;
    if x > 3
        putchar('a');
}
