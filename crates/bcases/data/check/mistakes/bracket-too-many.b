main() {
    auto v 3;
    v[1]] = 2;
    putchar(v[1]);
}
