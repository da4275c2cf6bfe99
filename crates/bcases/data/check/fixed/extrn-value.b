n;
main() {
    extrn n 5;
    n = 1;
}
