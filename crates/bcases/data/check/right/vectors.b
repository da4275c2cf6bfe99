w[3] 1, 2, 3, 4, 5;
z;
q 0;
main() {
    extrn w, z, q;
    auto v 5, x;
    v[5] = w[4];
    v[0] = w[0];
    x = &v[1];
    z[1] = x;
    q[1] = x;
    f(v, &v[2]);
    v[x] = v[x - 1];
    x = v;
    f(x, g(v));
}
f(a, b) {
    return(a[1] + b);
}
g(v) {
    return(v);
}
