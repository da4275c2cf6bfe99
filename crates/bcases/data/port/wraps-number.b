main() {
    auto x;
    x = 300;
    printn(x * 300, 10);
}
