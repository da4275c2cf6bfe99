a; b;
main() {
    extrn a b;
    a = b;
}
