/* Gives how many characters a string has, with a mistake. */
length(s) {
    auto n;

    n = 0;
    while(char(s, n++) != '*e')
        ;
    return(n);
}
