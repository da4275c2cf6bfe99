/* Wrong: it compares the addresses, and not the words at them. */
/* Told: words in order already, p the higher address: the word at p is 9 and not 4 */
order(p, q) {
    auto old;

    if(p > q) {
        old = *p;
        *p = *q;
        *q = old;
    }
}
