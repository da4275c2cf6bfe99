v[3] 1, 2, 3, 4;
main() {
    extrn v;
    auto i, n, p;
    p = v;
    i = n = 0;
    while(i < 4) {
        n =+ v[i] > 2;
        i = i + 1;
        p = v + i;
        n =+ 'b' - 'a';
    }
    while(i-- > 0)
        printn(2 * i + n - 7 % 3 << 1, 10);
}
