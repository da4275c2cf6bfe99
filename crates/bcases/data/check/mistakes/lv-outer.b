main() {
    auto x, s;
    x = 1;
    s = "ab";
    n = s + x;
}
n 5;
