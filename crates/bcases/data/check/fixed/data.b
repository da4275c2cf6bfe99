n
main() {
    extrn n;
    n = 65;
    putchar(n);
}
