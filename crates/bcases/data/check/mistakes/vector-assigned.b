main() {
    auto v 3;
    v(0) = 1;
    putchar(v[0]);
}
