main() {
    auto n;
    n = 16;
    printn(1 << n, 10);
}
