main() {
    auto x, y;
    y = 1;
    x=&y;
    printn(x, 10);
}
