main() {
    auto c, n, s;
    c = getchar();
    n = 3;
    s = "abc";
    putstr(c);
    putstr('a');
    putstr(n);
    printf("%s %d %c*n", n, s, c);
}
putstr(s) {
    auto i, c;
    i = 0;
    while((c = char(s, i++)) != '*e')
        putchar(c);
}
printf(form, a, b, c) {
    putstr(form);
    printn(a + b + c, 10);
}
