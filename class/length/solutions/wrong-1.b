/* Wrong: it is as it was: n++ counts the end, too. */
/* Told: length of hello is 6 and not 5 */
length(s) {
    auto n;

    n = 0;
    while(char(s, n++) != '*e')
        ;
    return(n);
}
