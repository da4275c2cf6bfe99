/* Vectors that are drawn, in three orders in turn. */
drawnvec[9];

main() {
    extrn drawnvec, drless, drmore, drlast;
    auto i, k, n;

    i = 0;
    while(i++ < 9) {
        k = 0;
        while(k < 10)
            drawnvec[k++] = 11 * draw(90);
        n = 2 + draw(8);
        arrange(drawnvec, drawnvec + n, i % 3 == 0 ? drless : i % 3 == 1 ? drmore : drlast);
        k = 0;
        while(k < 10) {
            printn(i % 3 == 2 & k < n ? drawnvec[k] % 10 : drawnvec[k], 10);
            putchar(' ');
            k++;
        }
        putchar('*n');
    }
}

drless(a, b)
    return(a < b);

drmore(a, b)
    return(a > b);

drlast(a, b)
    return(a % 10 < b % 10);
