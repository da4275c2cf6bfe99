/* The operator at each two of some words. */
v[10] 0, 1, 2, 127, 128, 255, 256, 32767, 32768, 65534, 65535;

main() {
    extrn v;
    auto i, j, x;

    i = 0;
    while(i < 11) {
        j = 0;
        while(j < 11) {
            printn(v[i] < v[j], 10);
            x = v[i];
            if((x =< v[j]) != (v[i] < v[j]) | x != (v[i] < v[j])) putchar('!');
            putchar(' ');
            j++;
        }
        putchar('*n');
        i++;
    }
}
