main() {
    auto v;
    v[0] = 3;
}
