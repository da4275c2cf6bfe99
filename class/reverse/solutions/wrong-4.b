/* Wrong: v = w changes the pointer alone, and no word of the vector. */
/* Told: all is as it was, so nothing was turned, or twice */
reverse(v, n) {
    auto w 20, i;

    i = 0;
    while(i < n) {
        w[i] = v[n - 1 - i];
        i++;
    }
    v = w;
}
