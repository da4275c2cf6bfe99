main() {
    auto s 5, c;
    c = getchar();
    s[0] = c >> 8 | c >> 7;
    s[1] = c >> 2;
    lchar(s, 2, 0);
    lchar(s, 3, 0);
    if(char(s, 0) == 0) putchar('0');
    if(c == 0) putchar('0');
    if(c) putchar('1');
}
