/* Puts x into the n sorted words at v. */
insert(v, n, x) {
    auto p;

    assert(n >= 0, "insert: n is negative");
    p = v + n;
    while(p == v ? 0 : p[-1] > x) {
        *p = p[-1];
        p--;
    }
    *p = x;
}
