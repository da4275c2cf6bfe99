n 10;
m 0;
k;
o[2];
kinds() {
    auto v 3, w 3, u 3;
    v = 5;
    w[0] = 1;
    w = 2;
    printn(u, 10);
}
bounds(i) {
    auto v 3;
    extrn o;
    v[3] = 1;
    v[4] = 1;
    v[-1] = 1;
    v[-1 + i] = 1;
    v[4 - i] = 1;
    v[-0] = 1;
    v[i] = o[2];
    o[3] = v[i - 1];
}
words(i) {
    extrn n, m, k;
    n[0] = i;
    m[0] = i;
    k[0] = i;
}
stored(p) {
    extrn n;
    n = p;
    n[0] = 1;
}
ends() {
    auto c, d, e;
    c = getchar();
    d = c - 1;
    e = 0;
    if(c == -1)
        e = 1;
    if(c != -1)
        e = 2;
    if(c == -2)
        e = 3;
    if(c == 1)
        e = 4;
    if(d == -1)
        e = 5;
    if(c < -1)
        e = 6;
    printn(e, 10);
}
passes(a) {
    auto p, v 3;
    extrn o;
    v[0] = a;
    p = &v;
    kept(&v);
    kept(a, &o);
    p = a & v;
    p = &v[1];
    p = &v + 1;
    p = &a;
    return(v);
}
kept(p) {
    auto q;
    q = &p;
    return(q);
}
adds(a) {
    auto v 3;
    v[0] = a;
    kept(v);
    return(v + 1);
}
outer() {
    extrn o;
    return(o);
}
gives(a) {
    auto b, v 3;
    b = v[0] = a;
    if(a == 1)
        return(&b);
    if(a == 2)
        return(&b + 1);
    if(a == 3)
        return(&v[1]);
    if(a == 4)
        return(v[&b - 1]);
    return(&a);
}
