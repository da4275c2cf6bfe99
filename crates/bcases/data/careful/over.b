f() {
    auto x;
    x = 5;
    return(&x);
}
main() {
    auto p;
    p = f();
    printn(*p, 10);
}
