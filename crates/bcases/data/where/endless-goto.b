v[3] 1, 2, 3;
main() {
    extrn v;
    again:
        v[1] = v[2];
        goto again;
}
