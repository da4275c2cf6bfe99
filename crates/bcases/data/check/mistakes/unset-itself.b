main() {
    auto s;
    s = s + 3;
    printn(s, 10);
}
