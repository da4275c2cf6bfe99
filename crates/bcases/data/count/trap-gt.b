main() {
    auto n;
    n = 1;
    goto n;
}
