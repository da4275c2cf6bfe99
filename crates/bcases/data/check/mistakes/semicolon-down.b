main() {
    auto n;
    n = 'b';
    n--
    putchar(n);
}
