main() {
    auto s;
    s = "ab";
    lchar(s);
}
