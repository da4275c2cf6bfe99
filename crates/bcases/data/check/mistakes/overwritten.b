/* A value is gone before anything reads it. */
main() {
    auto a, b, c;
    a = getchar();
    b = 0;
    b = a;
    c = a + 1;
    c = a + b;
    if(a) {
        c = b;
        c = keep(a, b);
    }
    while(a < 9) {
        a = b;
        a = c - 9;
    }
    c = 'x'; c = b;
    printn(keep(b, c), 10);
    a = 1;
    a = a + 1;
    b = getchar();
    b = getchar() - a;
    c = 32767 + 1;
    c = 200 * 200;
    if(c)
        a = 3;
    a = b;
    printn(a + b, 10);
}
n;
keep(x, y) {
    extrn n;
    auto z;
    z = y;
    z = x ? n : 2;
    n = 1;
    n = z;
    x = 0;
    point(&x);
    x = 1;
    x = n;
    return(x + y);
}
point(p) *p = 4;
