v[1] 1, 2, 3;
main() {
    extrn v;
    printn(v[2], 10);
}
