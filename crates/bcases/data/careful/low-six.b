main() {
    auto p;
    p = 7;
    while(p > 0) p[-1 + 0 * p--] = 1;
}
