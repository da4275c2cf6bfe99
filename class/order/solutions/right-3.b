/* Puts the smaller one of the words at p and q at p. */
order(p, q) {
    auto old;

    assert(p != q, "order: two words are asked for");
    if(*p > *q) {
        old = *p;
        *p = *q;
        *q = old;
    }
}
