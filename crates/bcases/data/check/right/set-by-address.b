zero(p) *p = 0;
main() {
    auto n;
    zero(&n);
    printn(n, 10);
}
