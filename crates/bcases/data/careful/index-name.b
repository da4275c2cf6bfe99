main() {
    auto x, y, p;
    x = 1;
    y = 2;
    p = &x;
    p[0] = 3;
    p[1] = 4;
}
