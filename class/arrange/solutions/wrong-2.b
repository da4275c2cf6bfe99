/* Wrong: it hands on the addresses, and not the words at them. */
/* Told: before gets the words, and no addresses: what it got is */
arrange(first, end, before) {
    auto p;

    while(first != end) {
        p = first + 1;
        while(p != end) {
            if(before(p, first))
                swap(p, first);
            p++;
        }
        first++;
    }
}

swap(p, q) {
    auto old;

    old = *p;
    *p = *q;
    *q = old;
}
