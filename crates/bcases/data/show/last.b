n 2;
main() {
    extrn n;
    while(n) putchar('0' + --n);
    exit(getchar());
}
