v[2] one, two, one;
w three;
main() {
    extrn v, w;
    printn(v[0] + w, 10);
}
