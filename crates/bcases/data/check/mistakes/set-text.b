main() {
    auto s;
    getstr(s);
    putchar(char(s, 0));
}
getstr(p) *p = 5;
