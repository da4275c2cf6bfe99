/* Puts x into the n sorted words at v, by its index. */
insert(v, n, x) {
    auto i;

    i = n;
    while(i > 0) {
        if(v[i - 1] <= x)
            goto here;
        v[i] = v[i - 1];
        i--;
    }
here:
    v[i] = x;
}
