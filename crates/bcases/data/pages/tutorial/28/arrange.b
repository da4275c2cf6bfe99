/* Sorts the words from the address first on, up to the one before the address end. */
arrange(first, end) {
    auto p;

    while(first != end) {
        p = first + 1;
        while(p != end) {
            if(*p < *first)
                swap(p, first);
            p++;
        }
        first++;
    }
}

swap(p, q) {
    auto old;

    old = *p;
    *p = *q;
    *q = old;
}
