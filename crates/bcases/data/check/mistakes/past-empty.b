v[];
main() {
    extrn v;
    v[0] = 'a';
    v[1] = 'b';
}
