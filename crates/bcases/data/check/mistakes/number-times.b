main() {
    auto x;
    x = 7;
    printn(2x + 1, 10);
}
