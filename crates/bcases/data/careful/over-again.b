f() {
    auto x;
    x = 5;
    return(&x);
}
g(p) {
    printn(*p, 10);
}
main() {
    g(f());
}
