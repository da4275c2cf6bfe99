main() {
    auto s;
    s = "ab";
    printn(s[0], 10); putchar(' ');
    printn(s[1], 10); putchar(' ');
    lchar(s, 0, 'A');
    putchar(char(s, 0));
    putchar(char(s, 1));
}
