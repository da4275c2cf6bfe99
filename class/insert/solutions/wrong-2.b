/* Wrong: where x is the smallest, it moves what stands before the vector, too. */
/* Told: given[0] is 7 and not 99 */
insert(v, n, x) {
    auto p;

    p = v + n;
    while(p[-1] > x) {
        *p = p[-1];
        p--;
    }
    *p = x;
}
