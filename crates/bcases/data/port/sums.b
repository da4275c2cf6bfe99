main() {
    auto a, b, t, i;
    a = b = 1;
    for(i = 0; i < 30; i++) {
        t = a + b;
        a = b;
        b = t;
    }
    printn(b, 10);
}
