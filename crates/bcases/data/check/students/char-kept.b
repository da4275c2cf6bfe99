main() {
    auto s, i, c;
    s = "abc";
    i = 0;
    c = char(s, i);
    while(c != 0) {
        putchar(c);
        c = char(s, ++i);
    }
}
