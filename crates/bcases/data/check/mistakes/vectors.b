w[3] 1, 2, 3, 4, 5;
n 5;
z;
main() {
    extrn w, n;
    auto v 5, u 2, t 2, s 2, x;
    v[6] = 1;
    v[-1] = 1;
    w[5] = 1;
    w[-2] = 1;
    n[1] = 1;
    u = 3;
    t++;
    if(s == 3)
        x = 1;
    x = &v;
    f(&v);
    f(&w);
    x = v[5] + w[4] + v[0];
    f(x);
}
f(a) {
    return(a);
}
g() {
    auto v 3;
    v[0] = 1;
    return(v);
}
h() {
    auto x;
    x = 1;
    return(&x);
}
