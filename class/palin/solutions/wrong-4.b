/* Wrong: it says yes at the first pair that is equal. */
/* Told: palin of abca is 1 and not 0 */
palin(s) {
    auto first, last;

    last = 0;
    while(char(s, last) != '*e')
        last++;
    first = 0;
    last--;
    while(first < last) {
        if(char(s, first) == char(s, last))
            return(1);
        first++;
        last--;
    }
    return(0);
}
