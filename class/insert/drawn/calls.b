/* Vectors that begin empty, and get one drawn word after the other. */
drawnvec[9];

main() {
    extrn drawnvec;
    auto i, n, k;

    i = 0;
    while(i++ < 6) {
        k = 0;
        while(k < 10)
            drawnvec[k++] = 1000;
        n = 0;
        while(n < 8) {
            insert(drawnvec + 1, n, draw(40) - 10);
            n++;
        }
        k = 0;
        while(k < 10) {
            printn(drawnvec[k++], 10);
            putchar(' ');
        }
        putchar('*n');
    }
}
