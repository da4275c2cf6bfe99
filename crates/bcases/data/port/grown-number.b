main() {
    auto n;
    n = 40000;
    printn(n / 2, 10);
}
