/* Wrong: the last of n words is v[n - 1], and this takes v[n]. */
/* Told: given[0] is 9 and not 8 */
reverse(v, n) {
    auto i, old;

    i = 0;
    while(i < n) {
        old = v[i];
        v[i] = v[n];
        v[n] = old;
        i++;
        n--;
    }
}
