/* What each increment gives and leaves, at the edges of a word. */
v[12] 0, 1, 4, 10, 13, 127, 128, 255, 256, 32767, 32768, 65534, 65535;

main() {
    extrn v;
    auto i, x;

    i = 0;
    while(i < 13) {
        x = v[i]; printn(++x, 10); putchar(' '); printn(x, 10); putchar(' ');
        x = v[i]; printn(--x, 10); putchar(' '); printn(x, 10); putchar(' ');
        x = v[i]; printn(x++, 10); putchar(' '); printn(x, 10); putchar(' ');
        x = v[i]; printn(x--, 10); putchar(' '); printn(x, 10); putchar('*n');
        i++;
    }
}
