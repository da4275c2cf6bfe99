main() {
    auto s 3;
    lchar(s, 0, 'a');
    lchar(s, 1, '*0');
    lchar(s, 2, 0);
    lchar(s, 0, '*e');
}
