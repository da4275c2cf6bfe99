main() {
    auto s, n;
    s = "ab";
    n = 2;
    f(1);
    f(1, 2, 3);
    f(1, 2);
    f();
    n = g();
    printn(g(), 10);
    g();
    putchar();
    putchar('a', 'b');
    printn(n);
    getchar(1);
    char(s);
    lchar(s, 0);
    exit(1, 2);
    printn(10, n);
    printn(8, n);
    printn(n, 16);
    printn(n, 11);
    printn(n, 1);
    printn(n, 0);
    printn(n, 2);
    char(0, s);
    lchar(0, s, 'x');
    lchar(s, 'x', 0);
    printn("ab", 10);
    putchar("a");
    putchar("ab");
    putchar("abc");
    if(n == "a")
        n = 1;
    if(n == "abc")
        n = 1;
    if("abc" == s)
        n = 1;
    if("a" != s)
        n = 1;
    spread(1, 2, 3, 4);
    exit();
}
f(a, b) {
    return(a + b);
}
g() {
    putchar('g');
}
spread(a) {
    return(&a);
}
