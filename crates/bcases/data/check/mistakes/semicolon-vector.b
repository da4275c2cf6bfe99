v[2]
main() {
    extrn v;
    v[0] = 1;
}
