v[3];
main() {
    extrn v;
    v[4] = 1;
}
