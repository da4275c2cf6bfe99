main() {
    strings(1);
    mixed(1);
    counts(1);
    chars(1);
    inputs(1);
}
strings(p) {
    auto i, s, t;
    i = 0;
    s = "abc";
    while(*s)
        s++;
    while(s[i])
        i++;
    while(*s != 0)
        s++;
    while(*s != 4)
        s++;
    while(*p)
        p++;
    t = "abc";
    t = "def";
    while(*t)
        t++;
}
mixed(p) {
    auto s;
    s = "abc";
    if(*p)
        s = p;
    while(*s)
        s++;
}
counts(p) {
    auto s;
    s = "abc";
    p = &s;
    while(*s)
        s++;
}
chars(p) {
    auto c, d;
    c = char("abc", 0);
    while(c)
        c = char("abc", 1);
    d = char("abc", 0);
    while(d)
        d = p;
    while(p)
        p--;
}
inputs(p) {
    auto c, d;
    c = getchar();
    while(c)
        c = getchar();
    d = getchar();
    while(d)
        d = p;
    while(c != 0)
        c = getchar();
    while(c != 4)
        c = getchar();
}
