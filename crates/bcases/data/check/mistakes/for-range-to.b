main() {
    auto k, n;
    n = 4;
    for k in range(n):
        printn(k, 10);
}
