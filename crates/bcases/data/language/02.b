main() {
    auto a, b, x, i, v 10, s;
    a = 1; b = 0;
    printn(a & b, 10); printn(a ? b : 0, 10); printn(a | b, 10); printn(a ? 1 : b, 10);
    x = 5; x =+ 2; x =- 1; printn(x, 10);
    x = -1; printn(x, 10);
    if(a == b) putchar('n');
    v[10] = 3; printn(v[10], 10);
    i = 0; while(i < 3) { printn(i, 10); i++; }
    i = 0;
again:
    i++; if(i < 3) goto again;
    while(1) { if(i == 5) goto out; i++; }
out:
    printn(i, 10); printn(kind(7), 10); printn(kind(-1), 10);
    putchar(char("ab", 1)); s = "say *"hi*""; putchar(char(s, 4));
    printn(037, 10); putchar('ab'); putchar('cd'); putchar('*n');
}
kind(x) {
    switch x { case 65535: return(1); case 7: goto out; }
    return(0);
out: return(9);
}
