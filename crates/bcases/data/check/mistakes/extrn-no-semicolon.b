n 3;
main() {
    extrn n
    n = 4;
}
