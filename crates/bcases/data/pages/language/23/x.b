main() {
    auto x, p;
    p = &x;
    *p = 5;
    p[0] =+ 1;
    (x) =+ 1;
    printn(x, 10);
}
