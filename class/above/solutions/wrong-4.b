/* Wrong: it compares with the sum of the words before, since both loops are one. */
above(v, n) {
    auto i, sum, count;

    sum = count = i = 0;
    while(i < n) {
        sum =+ v[i];
        if(v[i] > sum / n)
            count++;
        i++;
    }
    return(count);
}
