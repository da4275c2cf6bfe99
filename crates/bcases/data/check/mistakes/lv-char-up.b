main() {
    auto x, s;
    x = 1;
    s = "ab";
    char(s, x)++;
}
