/* A body that is only indented. */
first(n) {
    auto i;
    i = 0;
    while(i < n) /* told */
        printn(i, 10);
        i++; /* told */
    putchar('*n');
}
second(a, b) {
    auto old;
    if(a > b)
        old = a;
        a = b; /* told */
        b = old;
    return(a);
}
third(v, n) {
    while(n-- > 0) {
        if(v[n] == 0)
            v[n] = 1;
            v[0]++; /* told */
    }
}
fourth(c) {
    if(c == 'a')
        putchar('1');
    else
        putchar('2');
        putchar('*n'); /* told */
}
fifth(n) {
top:
    if(n > 0)
        if(n > 3)
            n--;
            putchar('x'); /* told */
    if(n > 5) goto top;
}
sixth(n) {
    switch n {
        case 1:
            while(n < 10) /* told */
                next(n,
                     2);
                n++; /* told */
    }
    if(n == 7) { n = 2; }
        putchar('z'); /* missed */
}
next(a, b) return(a + b);
main() {
    auto v 3;
    v[0] = v[1] = v[2] = v[3] = 1;
    first(2); second(1, 2); third(v, 2); fourth('b'); fifth(1); sixth(3);
}
