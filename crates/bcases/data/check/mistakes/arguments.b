main() {
    auto i, s;
    s = "abc";
    i = 1;
    printn(i, 0);
    printn(i, 1);
    printn(i, 11);
    printn(i, 2);
    printn(i, 10);
    printn(i, i + 16);
    printn(i, -16);
    putchar(1);
    lchar(s, 'a', i);
    lchar(s, 'a', 'b');
    lchar(s, 'a' + 1, i);
    lchar(s + 1, i, i);
    lchar(own('a', s), 0, i);
    lchar(s, 1, i);
    putchar();
    exit(1, 2);
    getchar(1);
    char(s);
    exit(0);
    exit();
}
own(a, b) {
    if(a)
        none();
    else
        none();
    while(a--)
        none();
    { none(); }
    none();
on:
    none();
    a = none();
    b = a + none();
    return(none());
}
none() {
    putchar('n');
}
apply(own, x) {
    return(own(x));
}
first(a) if(a = 1) putchar('a');
