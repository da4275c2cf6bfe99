main() {
    auto v 1;
    v[1] = 2;
}
