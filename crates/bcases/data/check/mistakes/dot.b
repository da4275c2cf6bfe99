main() {
    auto p;
    p = 1;
    p.x = 1;
}
