main() {
    extrn v; auto i;
    i = 1;
    f(i++, 2);
    f(i++, v[i]);
    f(getchar(), getchar());
}
f(a, b) { printn(a - b, 10); }
v[2] 1, 2, 3;
