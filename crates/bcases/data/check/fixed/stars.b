f(v) {
    auto i;
    i = 1
    *v = i;
}
main() {
    auto v 1;
    f(v);
    putchar(v[0] + '0');
}
