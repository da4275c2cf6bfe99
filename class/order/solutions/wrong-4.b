/* Wrong: it orders copies, and stores nothing back. */
/* Told: nothing was stored at p and q */
order(p, q) {
    auto a, b, old;

    a = *p;
    b = *q;
    if(a > b) {
        old = a;
        a = b;
        b = old;
    }
}
