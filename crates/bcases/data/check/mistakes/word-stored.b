main() {
    auto s, i, c;
    s = "abc";
    i = 1;
    s[0] = 'x';
    c = char(s, i);
    s[i + 1] = c;
    putchar(char(s, 0));
}
