/* How many of the first n words of v are above their mean. */
above(v, n) {
    auto i, sum, count;

    assert(n > 0, "above: n is at least 1");
    sum = count = i = 0;
    while(i < n)
        sum =+ v[i++];
    i = 0;
    while(i < n)
        count =+ v[i++] > sum / n;
    return(count);
}
