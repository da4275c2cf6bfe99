/* Strings that are drawn, with many blanks. */
main() {
    auto s 12, i, k, n;

    i = 0;
    while(i++ < 20) {
        n = draw(20);
        k = 0;
        while(k < n) {
            lchar(s, k, draw(3) ? 'a' + k : ' ');
            k++;
        }
        lchar(s, n, '*e');
        printn(blanks(s), 10);
        putchar(' ');
    }
}
