main() {
    auto c, n;
    c = getchar() & 0177;
    n = c * 8 + (c << 4);
    printn(n & 0377, 10);
}
