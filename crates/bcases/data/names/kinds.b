/* kinds of names */
n 7, f;
f(a, b) {
    auto c, v 2;
    extrn n, m;
top:
    if (a) goto top;
    c = b + n + m;
    return(g(c, v, f));
}
