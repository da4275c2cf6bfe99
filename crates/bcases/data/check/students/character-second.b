main() {
    auto s 5;
    lchar(s, 'h', 0);
    lchar(s, '*e', 1);
    putchar(char(s, 0));
}
