v[1] 1972, 65535;

main() {
    extrn v;

    dump(&v, 3);
    dump("abc", 2);
}
