main() {
    auto s, i;
    s = "abc";
    i = 0;
    putchar(s[i + 1]);
    putchar(char(s, i));
    if(s[i] == 'a')
        putchar('b');
}
