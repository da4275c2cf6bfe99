main() {
    auto s;
    s = "ab";
    lchar(s, 0, 'A');
}
