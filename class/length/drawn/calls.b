/* Strings that are drawn. */
main() {
    auto s 16, i, k, n;

    i = 0;
    while(i++ < 20) {
        n = draw(30);
        k = 0;
        while(k < n)
            lchar(s, k++, 'a' + draw(26));
        lchar(s, n, '*e');
        printn(length(s), 10);
        putchar(' ');
    }
}
