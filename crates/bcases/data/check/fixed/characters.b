main() {
    auto s;
    s = 'abc';
    putchar(char(s, 0))
}
