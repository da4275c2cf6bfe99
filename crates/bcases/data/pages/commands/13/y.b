main() {
    auto a, b;
    a = 5
    b = 7;
    swap(&a, &b);
}

swap(p, q) {
    t = *p;
    *p = *q;
    *q = t;
}
