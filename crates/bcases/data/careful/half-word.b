main() {
    auto s 3, t;
    lchar(s, 2, 'h');
    lchar(s, 2, 'i');
    t = s[1];
}
