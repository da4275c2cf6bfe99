main() {
    chosen(2);
    last(2);
    inside(2);
    given(2);
    before(2);
    early(2);
    within(2);
    either(2);
    next(2);
}
chosen(a) {
    auto x;
    x = a ? x : 1;
    printn(x, 10);
}
last(a) {
    auto x;
    x = a ? 1 : x;
    printn(x, 10);
}
inside(a) {
    auto x, y;
    x = ((a)) + x;
    y = a[0] + y;
    printn(x + y, 10);
}
given(a) {
    auto x;
    x = char(a, x);
    putchar(x);
}
before(a) {
    auto x, y;
    a ? (x = 1) : (x = 2);
    y = a ? (a = 1) : 2;
    printn(x + y, 10);
}
early(a) {
    auto x;
    while(a ? x : 0)
        x = a--;
}
within(a) {
    auto x;
    if(a)
        while(a--) {
            printn(x, 10);
            x = 1;
        }
}
either(a) {
    auto x;
    while(a--)
        if(a == 1)
            printn(x, 10);
        else
            x = 1;
}
next(a) {
    auto x;
    while(a--)
        putchar('a');
    if(a)
        printn(x, 10);
    x = 1;
}
