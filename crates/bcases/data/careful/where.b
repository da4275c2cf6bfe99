main() {
    auto v 1;
    v[1 + 1] = 5;
}
