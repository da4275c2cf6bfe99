main() {
    auto x;
    x = + 2;
    printn(x, 10);
}
