main() {
    auto x;
    x = 1;
    print(x) putchar('a');
}
