main() {
    auto p;
    p = (p ? 1 : 2) 4;
}
