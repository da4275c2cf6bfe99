main() {
    auto n;
    n = 050 + 120;
    n = n & 017 | 120;
    printn(n + 017, 10);
}
