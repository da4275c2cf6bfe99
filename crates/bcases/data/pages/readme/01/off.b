main() {
    auto v 4, i, n;
    n = 5;
    i = 0;
    while(i <= n)
        v[i++] = 0;
}
