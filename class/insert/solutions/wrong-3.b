/* Wrong: it moves the words from the front, so one of them goes all the way. */
/* Told: given[3] is 10 and not 20 */
insert(v, n, x) {
    auto i, k;

    i = 0;
    while(i < n ? v[i] < x : 0)
        i++;
    k = i;
    while(k < n) {
        v[k + 1] = v[k];
        k++;
    }
    v[i] = x;
}
