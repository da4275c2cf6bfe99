main() {
    characte("ab");
    input();
    pointer();
    indexed();
}
characte(s) {
    auto c, i;
    i = 0;
    c = char(s, i);
    while(c) {
        i++;
        c = char(s, i);
    }
    while(c != 0)
        c = char(s, i++);
    while(c == '*0')
        c = char(s, i++);
}
input() {
    auto c;
    c = getchar();
    while(c)
        c = getchar();
    while(c != 0)
        c = getchar();
}
pointer() {
    auto s;
    s = "ab";
    while(*s)
        putchar(*s);
    while(*s != 0)
        putchar(*s);
}
indexed() {
    auto s, i;
    s = "ab";
    i = 0;
    while(s[i])
        i++;
    while(s[i] != 0)
        i++;
}
