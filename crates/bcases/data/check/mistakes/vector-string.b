main() {
    auto s 20, i;
    s = "hello";
    i = 0;
    while(char(s, i) != '*e')
        putchar(char(s, i++));
}
