main() {
    auto x;
    x = 1 ? 2;
}
