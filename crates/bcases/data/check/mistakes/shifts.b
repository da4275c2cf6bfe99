main() {
    auto n;
    n = 3;
    printn(1 << n + 1, 10);
    printn(n + 1 >> 1, 10);
    printn((1 << n) + 1, 10);
    printn(1 << (n + 1), 10);
}
