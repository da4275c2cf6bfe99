main() {
    auto s, i;
    s = "abc";
    i = 0;
    while(s[i] != 0) putchar(s[i++]);
}
