v[3];
main() {
    extrn v;
    auto p;
    p = &v;
    p[0] = 1;
}
