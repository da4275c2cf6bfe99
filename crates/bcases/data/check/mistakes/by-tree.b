v[3];
main() {
    extrn v;
    auto x, y; x = y = 3;
    a1: b1: 5;
    if(x) l: 7;
    while(x < 3) m: 8;
    if(x & y == 1) x = 0;
    if(1 < v[0] < 3) x = 0;
    if(!v[0] == 3) x = 0;
    if(!(x) == 3) x = 0;
    g(x | v[1] != 1,
        g(y, 1) < x <= 2);
    if((x & y) == 1) x = 0;
    if(1 < v[0] & v[0] < 3) x = 0;
    if(!(v[0] == 3)) x = 0;
    if(x == 1 & y == 1) x = 0;
    if(!x == !y) x = 0;
    if(g(x, 1) & y == 1) x = 0;
}
g(a, b) {
    return(a + b);
}
