v[4] 1, 2, 3, 4, 5;
show(v, n) {
    auto i;
    i = 0;
    while(i < n)
        printn(v[i++], 10);
}
main() {
    extrn v;
    auto old 4;
    old = v;
    v[0] = 9;
    show(old, 5);
    show(v, 5);
}
