main() {
    auto x;
    x = 3.5;
    printn(x, 10);
}
