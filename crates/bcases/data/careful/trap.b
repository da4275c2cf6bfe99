main() {
    auto n;
    n = 0;
    printn(7 / n, 10);
}
