main() {
    auto n;

    n = 3;
    whle(n) putchar('a' + n--);
}
