main() {
    auto c, i, s;
    s = "hello";
    i = 0;
    while((c = char(s, i++)) != '*0')
        putchar(c);
}
