main() {
    auto x;
    x = 6;
    x ^= 5;
    x ^= x >> 1;
    printn(x, 10);
}
