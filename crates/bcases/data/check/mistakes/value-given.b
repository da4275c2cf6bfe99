main() {
    auto x, y, p;
    x = 3;
    y = 4;
    swap(x, y);
    swap(&x, &y);
    x = 5;
    set(x);
    p = &y;
    set(p);
    show(y);
    read(y);
}
swap(p, q) {
    auto t;
    t = *p;
    *p = *q;
    *q = t;
}
set(p)
    *p = 1;
read(p) {
    if(p)
        *p = getchar();
}
show(n)
    printn(n, 10);
