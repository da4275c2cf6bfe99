main() {
    auto x, y;
    x = 3;
    y = 4;
    x + y;
    printn(x, 10);
}
