/* Sorts the words from the address first on, up to the one before the address end. */
arrange(first, end, before) {
    auto p;

    assert(first != 0, "arrange: there is no vector");
    while(first != end) {
        p = first + 1;
        while(p != end) {
            if(before(*p, *first))
                swap(p, first);
            p++;
        }
        first++;
    }
}

swap(p, q) {
    auto old;

    old = *p;
    *p = *q;
    *q = old;
}
