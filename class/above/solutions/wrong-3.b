/* Wrong: the sum isn't set to 0, so it begins with what a call before left there. */
/* Told: sum is used here, and nothing has set it before */
above(v, n) {
    auto i, sum, count;

    i = count = 0;
    while(i < n)
        sum =+ v[i++];
    i = 0;
    while(i < n)
        if(v[i++] > sum / n)
            count++;
    return(count);
}
