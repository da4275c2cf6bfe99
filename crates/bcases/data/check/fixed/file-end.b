main() {
    extrn n;
    putchar(n);
}
n 65
