main() {
    auto a, b;
    a = b = 1;
    if(a)
        (a);
    if(a) (a);
    while(a--) *b;
    (a--);
    (a++);
    *a++;
    !f(a);
    a[f(b)];
    (f(a));
    a ? f(a) : f(b);
    a & (b = 1);
    f(a) == b;
    a > b;
    a <= b;
    a >= b;
    a[b == 1];
    a ? b == 1 : 2;
    f(a == b);
    a = b == 1;
    'x' & a;
    if(a) b;
    a[1](b);
    a[1];
}
f(a) {
    return(a);
}
