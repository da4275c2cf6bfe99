main() {
    auto x, s;
    x = 1;
    s = "ab";
    int *p;
    p = s;
}
