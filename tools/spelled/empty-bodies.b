/* A stray ; as the body. */
first(n) {
    while(n > 0);{ /* told */
        putchar('*n');
        n--;
    }
}
second(a, b) {
    if(a > b); /* told */
        a = b;
    return(a);
}
third(v, n) {
    auto i;
    i = 0;
    while(i < n) {
        if(v[i] == 0)
            ; /* told */
        {
            v[i] = 1;
        }
        i++;
    }
}
fourth(a) {
    if(a == 1)
        putchar('1');
    else; /* missed */
        putchar('2');
}
fifth(n) {
top: while(next(n) != 0); /* told */
    {
        n--;
    }
    if(n) goto top;
}
sixth(a, b) {
    if(a) if(b); /* told */
        putchar('b');
}
next(n) return(n - 1);
main() {
    auto v 2;
    v[0] = v[1] = 0;
    first(2); second(3, 2); third(v, 2); fourth(1); fifth(1); sixth(1, 0);
}
