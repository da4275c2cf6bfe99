/* Wrong: it changes the pointers, which are words of its own, and not what is at them. */
/* Told: nothing was stored at p and q */
order(p, q) {
    auto old;

    if(*p > *q) {
        old = p;
        p = q;
        q = old;
    }
}
