/* Strings that are drawn, each with its answer: half of them are made to read the same from both ends. */
main() {
    auto s 10, i, k, n, c;

    i = 0;
    while(i++ < 20) {
        n = draw(12);
        k = 0;
        while(k < n) {
            c = 'a' + draw(3);
            lchar(s, k, c);
            if(i % 2)
                lchar(s, n - 1 - k, c);
            k++;
        }
        lchar(s, n, '*e');
        printn(palin(s), 10);
    }
}
