main() {
    extrn n;
    n(1);
}
n 100;
