/* Sorts the words from the address first on: each comes before those that have to come after it. */
arrange(first, end, before) {
    auto p, q, word;

    p = first;
    while(p != end) {
        word = *p;
        q = p;
        while(q == first ? 0 : before(word, q[-1])) {
            *q = q[-1];
            q--;
        }
        *q = word;
        p++;
    }
}
