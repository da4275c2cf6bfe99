/* Vectors that are drawn, of which some words are turned round. */
drawnvec[9];

main() {
    extrn drawnvec;
    auto i, k;

    i = 0;
    while(i++ < 8) {
        k = 0;
        while(k < 10)
            drawnvec[k++] = draw(100);
        reverse(drawnvec, draw(10));
        k = 0;
        while(k < 10) {
            printn(drawnvec[k++], 10);
            putchar(' ');
        }
        putchar('*n');
    }
}
