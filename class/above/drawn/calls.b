/* Vectors that are drawn, and how many of their words are above the mean. */
drawnvec[9];

main() {
    extrn drawnvec;
    auto i, k;

    i = 0;
    while(i++ < 12) {
        k = 0;
        while(k < 10)
            drawnvec[k++] = draw(60) - 10;
        printn(above(drawnvec, 1 + draw(10)), 10);
        putchar(' ');
    }
}
