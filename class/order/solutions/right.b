/* Puts the smaller one of the words at p and q at p. */
order(p, q) {
    auto old;

    if(*p > *q) {
        old = *p;
        *p = *q;
        *q = old;
    }
}
