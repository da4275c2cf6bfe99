main() {
    auto s, t, v 3, n;
    s = "abc";
    t = "abc";
    n = 1;
    v[0] = n;
    if(s == t)
        putchar('a');
    if(v != s)
        putchar('b');
    if(s == n | n == v[0])
        putchar('c');
}
