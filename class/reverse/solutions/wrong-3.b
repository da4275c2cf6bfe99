/* Wrong: the first word is lost before it is stored at the end. */
/* Told: given[4] is 5 and not 3 */
reverse(v, n) {
    auto i;

    i = 0;
    n--;
    while(i < n) {
        v[i] = v[n];
        v[n] = v[i];
        i++;
        n--;
    }
}
