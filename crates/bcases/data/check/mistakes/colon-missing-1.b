main() {
    auto p;
    p = p ? p ? 1 : 2;
}
