main() {
    auto x, y;
    x = 3;
    y = x + 1;
    set(1, y);
    set(1, x);
    printn(x + y, 10);
}
set(n, p)
    *p = n;
