main() {
    auto x, y;
    x = 1;
    y = x == 1;
    f(x == 1);
    x == 1 ? f(1) : f(2);
    x ? f(1) : 0;
    x++;
    --x;
    *x = y;
    (f)(1);
    x =+ y;
    f(1) | f(2);
    ;
}
f(a) {
    return(a);
}
