/* An automatic vector, or an external one, is called like a function. */
t[3] 1, 2, 3;
main() {
    extrn t, once;
    auto v 5, w 2, i, f;
    i = 0;
    v[0] = w[0] = 1;
    printn(v(i), 10);
    if(w(0) == 1)
        putchar('a');
    while(i < v(1) & i < 3)
        i++;
    i = i ? v(v[1]) : 0;
    printn(t(i) + 1, 10);
last:
    v(w(0), 1);
    f = once;
    f(v[i]);
    once(v);
    (*f)(w[0]);
}
once(g) g[0]++;
apply(g, x) return(g(x));
