main() {
    auto n;
    getnum(n);
    printn(n, 10);
}
getnum(p) *p = 5;
