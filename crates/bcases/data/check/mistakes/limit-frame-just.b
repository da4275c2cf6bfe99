f(a, b) {
    auto c, v 32763;
    c = a;
    v[c] = b;
}
