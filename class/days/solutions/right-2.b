/* How many days a month has, by a goto and a condition. */
days(month) {
    auto n;

    n = 0;
    if(month < 1 | month > 12)
        goto done;
    n = 31;
    if(month == 4 | month == 6 | month == 9 | month == 11)
        n = 30;
    if(month == 2)
        n = 28;
done:
    return(n);
}
