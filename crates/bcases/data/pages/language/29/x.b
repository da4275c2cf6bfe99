v[2] 10, 20, 30, 40;

main() {
    extrn v;
    auto w 2, i;
    i = 0;
    while(i < 3) {
        w[i] = v[i] + 1;
        i++;
    }
    printn(w[2], 10); putchar(' ');
    printn(v[3], 10); putchar(' ');
    printn(2[v], 10);
}
