main() {
    auto a, b, t, v 3;
    a = 1;
    b = 2;
    a = b;
    b = a;
    v[a] = v[b];
    v[b] = v[a];
    t = a;
    a = b;
    b = t;
    printn(a + b + t, 10);
}
