v[1] 1, 2, 3;
w[] 1, 2;
main() {
    extrn v, w;
    v[2] = v[0];
    v[3] = 1;
    w[1] = w[0];
    w[2] = 1;
    spread(1, 2, 3);
    other(1, 2);
    binary(1, 2, 3);
    printn(plain(1), 10);
    printn(valued(1), 10);
    printn(spread(1), 10);
}
spread(a) {
    auto p;
    p = &a;
    return(p[1]);
}
other(a) {
    auto x, p;
    x = a;
    p = &x;
    return(*p);
}
binary(a, b) {
    return(a & b);
}
plain(a) {
    if(a)
        return;
    putchar('p');
}
valued(a) {
    if(a)
        return(1);
}
