int x;
main() {
    extrn x;
    printn(x, 10);
}
