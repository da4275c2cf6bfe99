main() {
    auto v 3;
    v[0] = 1;
    v[-1] = 2;
}
