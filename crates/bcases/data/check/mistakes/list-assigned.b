main() {
    auto v 3;
    v = 1, 2, 3;
    putchar(v[0]);
}
