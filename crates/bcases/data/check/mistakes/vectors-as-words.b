main() {
    auto a 3, b 3, c 3, d 3;
    auto e 3, g 3, h 3, i 3, j 3, k 3;
    auto n;
    n = 2;
    ++a;
    --b;
    c++;
    d--;
    e =+ 1;
    if(g == 5)
        n = 3;
    if(h < 5)
        n = 3;
    if(i == n)
        n = 3;
    if(n == j)
        n = 3;
    k[0] = 1;
    ++k;
    printn(n, 10);
}
