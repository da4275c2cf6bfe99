/* How many of the first n words of v are above their mean, with a function of its own for the mean. */
above(v, n) {
    auto m, count, p;

    m = mean(v, n);
    count = 0;
    p = v;
    while(p != v + n)
        if(*p++ > m)
            count++;
    return(count);
}

mean(v, n) {
    auto sum, i;

    sum = 0;
    i = n;
    while(i)
        sum =+ v[--i];
    return(sum / n);
}
