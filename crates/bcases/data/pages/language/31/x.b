v[3] 10, 20, 30, 40;

main() {
    extrn v;
    auto p;
    clear(v, 2);
    p = v;
    while(p != v + 4)
        printn(*p++, 10);
    putchar(' ');
    printn(*&v == v, 10);
    printn(p - v, 10);
}

clear(w, n)
    while(n-- > 0)
        w[n] = 0;
