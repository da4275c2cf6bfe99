make() {
    auto v 3;
    v[0] = 1;
    return(v);
}
main() {
    auto p;
    p = make();
    printn(p[0], 10);
}
