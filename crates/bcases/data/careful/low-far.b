main() {
    auto p;
    p = 100;
    p[0] = 1;
}
