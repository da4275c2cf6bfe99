main() {
    auto x, y;
    x = 1;
    y = 2;
    swap(&x, &y);
    printn(x, 10);
    printn(y, 10);
}

swap(p, q) {
    auto old;
    old = *p;
    *p = *q;
    *q = old;
}
