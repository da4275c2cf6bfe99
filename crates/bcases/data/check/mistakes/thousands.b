main() {
    auto n;
    n = 1,000;
    printn(n, 10);
}
