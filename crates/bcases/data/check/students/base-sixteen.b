main() {
    auto n;
    n = 255;
    printn(n, 16);
}
