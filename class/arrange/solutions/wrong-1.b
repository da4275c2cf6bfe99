/* Wrong: it never asks the function. */
/* Told: given, by the last digit[0] is 14 and not 31 */
arrange(first, end, before) {
    auto p;

    while(first != end) {
        p = first + 1;
        while(p != end) {
            if(*p < *first)
                swap(p, first);
            p++;
        }
        first++;
    }
}

swap(p, q) {
    auto old;

    old = *p;
    *p = *q;
    *q = old;
}
