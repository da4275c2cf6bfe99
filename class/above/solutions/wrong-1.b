/* Wrong: it counts those that equal the mean, too. */
/* Told: above 7 7 7 is 3 and not 0 */
above(v, n) {
    auto i, sum, count;

    sum = count = i = 0;
    while(i < n)
        sum =+ v[i++];
    i = 0;
    while(i < n)
        if(v[i++] >= sum / n)
            count++;
    return(count);
}
