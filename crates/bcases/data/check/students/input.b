main() {
    auto n;
    n = input();
    printn(n, 10);
}
