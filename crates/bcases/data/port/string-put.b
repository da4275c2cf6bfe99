main() {
    auto s, i;
    s = "abcd";
    i = 0;
    while(i < 2) putchar(s[i++]);
}
