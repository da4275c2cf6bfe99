main() {
    auto v 1, w 1, d;
    v[0] = v[1] = 5;
    w[0] = w[1] = 6;
    d = w - v;
    printn(v[0], 10);
    printn(*(v * 1 + d), 10);
}
