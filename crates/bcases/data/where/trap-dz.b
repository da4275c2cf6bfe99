main() {
    auto n;
    n = 0;
    n = 1 % n;
}
