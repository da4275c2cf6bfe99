/* Wrong: it ends at the first blank. */
/* Told: blanks of four in a row is 1 and not 4 */
blanks(s) {
    auto i, count;

    i = count = 0;
    while(char(s, i) != '*e') {
        if(char(s, i) == ' ') {
            count++;
            return(count);
        }
        i++;
    }
    return(count);
}
