/* Wrong: it compares the first and the last character alone. */
/* Told: palin of abca is 1 and not 0 */
palin(s) {
    auto n;

    n = 0;
    while(char(s, n) != '*e')
        n++;
    return(n < 2 ? 1 : char(s, 0) == char(s, n - 1));
}
