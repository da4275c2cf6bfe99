/* Gives how many characters a string has: the end was counted, too. */
length(s) {
    auto n;

    n = 0;
    while(char(s, n++) != '*e')
        ;
    return(n - 1);
}
