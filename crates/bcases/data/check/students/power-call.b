main() {
    auto n;
    n = 4;
    n = (n + 1) ** n;
    printn(n, 10);
}
