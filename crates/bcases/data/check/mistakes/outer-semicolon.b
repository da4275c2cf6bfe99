n 5
v[2];
main() {
    extrn n, v;
    v[0] = n;
}
