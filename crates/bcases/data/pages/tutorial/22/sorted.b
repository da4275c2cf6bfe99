/* Six numbers, the smallest first. */
v[5] 31, 4, 15, 9, 26, 5;

main() {
    extrn v;
    auto p;

    arrange(v, v + 6);
    p = v;
    while(p != v + 6) {
        printn(*p, 10);
        putchar(' ');
        p++;
    }
    putchar('*n');
}

/* Sorts the words from the address first on, up to the one before the address end. */
arrange(first, end) {
    auto p;

    while(first != end) {
        p = first + 1;
        while(p != end) {
            if(*p < *first)
                swap(p, first);
            p++;
        }
        first++;
    }
}

swap(p, q) {
    auto old;

    old = *p;
    *p = *q;
    *q = old;
}
