const SIZE = 8;
main() {
    extrn SIZE;
    printn(SIZE, 10);
}
