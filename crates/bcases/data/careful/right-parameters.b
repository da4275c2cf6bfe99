main() {
    list(3, 10, 20, 30);
}
list(n, a, b, c) {
    auto p;
    p = &n;
    while(n--) {
        p =+ 1;
        printn(*p, 10);
        putchar(' ');
    }
}
