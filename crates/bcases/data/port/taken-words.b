list[3] 5, 6, 7;
main() {
    extrn list;
    auto p, q;
    p = list;
    q = !p;
    printn(!p, 10);
    printn(!(p + 1), 10);
    if(!q == 5)
        putchar('y');
    q = "abc";
    printn(q % 2, 10);
    p = !p;
}
