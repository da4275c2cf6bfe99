main() {
    auto x;
    x = 3;
    printn(x ** 2, 10);
}
