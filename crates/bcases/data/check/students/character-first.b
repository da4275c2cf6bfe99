main() {
    auto s 3;
    s[0] = 0;
    lchar(0, s, 'x');
}
