f() {
    auto v 3;
    v[0] = 1 +
        x();
}
