/* Wrong: a string ends with *e, which is 4, and not with 0. */
/* Told: a string ends with '*e', 4, and not with 0 */
palin(s) {
    auto first, last;

    last = 0;
    while(char(s, last) != 0)
        last++;
    first = 0;
    last--;
    while(first < last) {
        if(char(s, first) != char(s, last))
            return(0);
        first++;
        last--;
    }
    return(1);
}
