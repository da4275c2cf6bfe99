/* Statements that look like it. */
first(v, i) {
    v[i]++;
    *v++;
    (i)--;
    next(v[i]);
    return(i);
}
second(a, b) {
    a > b ? putchar('a') : putchar('b');
    a ? 0 : exit(1);
    (*b)(a);
    ;
    {}
    return(a);
}
third(f, n) {
    auto w 3;
    w[1](n);
    f(n);
    w[next(n)] = 1;
    ++w[0];
    (n =+ 1);
}
next(n) return(n + 1);
main() {
    extrn next;
    auto v 3, p;
    v[0] = v[1] = v[2] = v[3] = 0;
    p = next;
    first(v, 1); second(1, &p);
}
