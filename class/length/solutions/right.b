/* Gives how many characters a string has. */
length(s) {
    auto n;

    n = 0;
    while(char(s, n) != '*e')
        n++;
    return(n);
}
