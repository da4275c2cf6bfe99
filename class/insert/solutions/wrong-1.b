/* Wrong: x takes the place of a word, which is lost. */
/* Told: given[2] is 20 and not 10 */
insert(v, n, x) {
    auto p;

    p = v;
    while(p == v + n ? 0 : *p < x)
        p++;
    *p = x;
}
