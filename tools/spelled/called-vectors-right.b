/* Functions in vectors and words. */
first(f, n) return(f(n));
second(n) {
    extrn first, third;
    auto v 2;
    v[0] = third;
    return(v[0](n) + (*v)(n));
}
table[1] third, fourth;
third(n) return(n + 1);
fourth(n) {
    extrn table, third;
    auto t;
    t = third;
    return(t(n) + table[0](n));
}
main() {
    extrn third;
    printn(first(third, 1) + second(2) + fourth(3), 10);
}
