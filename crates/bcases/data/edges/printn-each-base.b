/* The edges of a word, to each base. */
v[12] 0, 1, 4, 10, 13, 127, 128, 255, 256, 32767, 32768, 65534, 65535;

main() {
    extrn v;
    auto i, base;

    base = 2;
    while(base <= 10) {
        i = 0;
        while(i < 13) {
            printn(v[i], base);
            putchar(' ');
            i++;
        }
        putchar('*n');
        base++;
    }
}
