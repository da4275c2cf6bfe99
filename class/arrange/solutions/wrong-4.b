/* Wrong: swap is missing. */
/* Told: nothing defines swap */
arrange(first, end, before) {
    auto p;

    while(first != end) {
        p = first + 1;
        while(p != end) {
            if(before(*p, *first))
                swap(p, first);
            p++;
        }
        first++;
    }
}
