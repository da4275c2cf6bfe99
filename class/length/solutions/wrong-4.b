/* Wrong: n isn't set to 0, so it begins with what a call before left there. */
/* Told: n is used here, and nothing has set it before */
length(s) {
    auto n;

    while(char(s, n) != '*e')
        n++;
    return(n);
}
