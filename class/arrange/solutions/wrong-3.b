/* Wrong: it goes through the words once, which sorts only one of them. */
/* Told: given[1] is 15 and not 5 */
arrange(first, end, before) {
    auto p;

    p = first;
    while(p + 1 != end) {
        if(before(p[1], *p))
            swap(p, p + 1);
        p++;
    }
}

swap(p, q) {
    auto old;

    old = *p;
    *p = *q;
    *q = old;
}
