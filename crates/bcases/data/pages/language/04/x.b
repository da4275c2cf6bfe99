n 5, 'a', t;
t 7;
v[9] 1, 2;

main() {
    extrn n, v;
    printn(n, 10); putchar(' ');
    printn((&n)[1], 10); putchar(' ');
    printn(*(&n)[2], 10); putchar(' ');
    printn(v[1], 10); putchar(' ');
    printn(v[9], 10);
}
