main() {
    auto x, s;
    x = 1;
    s = "ab";
    x = &5;
}
