main() {
    auto i, v 1, a, t;
    i = 0;
    while(i < 3)
        v[i++] = 7;
    printn(t, 10);
    printn(a / 0, 10);
}
