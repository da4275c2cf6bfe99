/* Turns the words v[0] to v[n - 1] round, by pointers from both ends. */
reverse(v, n) {
    auto last, old;

    last = v + n - 1;
    while(last - v > 0) {
        old = *v;
        *v++ = *last;
        *last-- = old;
    }
}
