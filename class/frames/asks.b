/* The same, step by step: b show asks.b > asks.html */
n 7;

main() {
    extrn n;
    auto x, v 1;

    x = twice(n);  /* ask */
}

twice(a) {
    auto r;

    r = a + a;  /* ask */
    return(r);  /* ask */
}
