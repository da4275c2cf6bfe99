main() {
    auto p;
    p = 1 ? 2 : 3 4;
}
