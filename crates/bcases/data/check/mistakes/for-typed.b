main() {
    auto n;
    n = 9;
    for(int i = n - 1; i > f(n, 0); i -= 2)
        printn(i, 10);
}
