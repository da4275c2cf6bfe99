/* Wrong: s[n] is a word with two characters, and no character. */
length(s) {
    auto n;

    n = 0;
    while(s[n] != '*e')
        n++;
    return(n);
}
