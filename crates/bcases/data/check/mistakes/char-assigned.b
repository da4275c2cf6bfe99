main() {
    auto s;
    s = "abc";
    char(s, 0) = 'x';
}
