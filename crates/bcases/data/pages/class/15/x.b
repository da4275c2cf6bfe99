main() {
    auto s, i, c;
    s = "abc";
    i = 0;
    while(c = char(s, i++))
        putchar(c);
}
