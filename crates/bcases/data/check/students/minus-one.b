main() {
    auto n;
    n = 3;
    while(n != -1)
        printn(n--, 10);
}
