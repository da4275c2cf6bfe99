/* Puts the smaller one of the words at p and q at p: both are read before one is stored. */
order(p, q) {
    auto a, b;

    a = *p;
    b = *q;
    *p = a < b ? a : b;
    *q = a < b ? b : a;
}
