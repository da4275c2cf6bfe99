/* Gives how many characters a string has. */
length(s) {
    auto n;

    assert(s, "length: this is no string");
    n = 0;
    while(char(s, n) != '*e')
        n++;
    return(n);
}
