main() {
    auto v 2, x;
    v[0] = 'a';
    x = v[0]
    putchar(x);
}
