/* Wrong: the last index is n - 1, and this takes v[n], too. */
/* Told: above 12 17 9, with -1000 after them is 3 and not 1 */
above(v, n) {
    auto i, sum, count;

    sum = count = i = 0;
    while(i <= n)
        sum =+ v[i++];
    i = 0;
    while(i <= n)
        if(v[i++] > sum / n)
            count++;
    return(count);
}
