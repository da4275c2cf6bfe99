/* print.b: words of memory, the last one and word 0 among them. */
v[5] 25185, 4, 65535, 32768, 32288, 32543;

main() {
    extrn v;

    dump(v, 6);
    dump(v, 0);
    dump(v, -1);
    dump(65534, 3);
    printf("%d", dump(v, 1));
}
