main() {
    auto p, s;
    s = "ab";
    p = &char(s, 0);
}
