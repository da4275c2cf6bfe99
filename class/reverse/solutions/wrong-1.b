/* Wrong: it goes through the whole vector, and so turns it round twice. */
/* Told: all is as it was, so nothing was turned, or twice */
reverse(v, n) {
    auto i, old;

    i = 0;
    while(i < n) {
        old = v[i];
        v[i] = v[n - 1 - i];
        v[n - 1 - i] = old;
        i++;
    }
}
