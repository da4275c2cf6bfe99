main() {
    auto s;
    s = "ab";
    printn(s, 10);
}
