/* Turns the words v[0] to v[n - 1] round. */
reverse(v, n) {
    auto i, old;

    assert(n >= 0, "reverse: n is negative");
    i = 0;
    n--;
    while(i < n) {
        old = v[i];
        v[i] = v[n];
        v[n] = old;
        i++;
        n--;
    }
}
