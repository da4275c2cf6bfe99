/* Wrong: it looks for 0, and a string ends with *e, which is 4. */
/* Told: a string ends with '*e', 4, and not with 0 */
length(s) {
    auto n;

    n = 0;
    while(char(s, n) != 0)
        n++;
    return(n);
}
