main() {
    auto n;
    n = 42;
    printn(10, n);
}
