/* Wrong: it counts the words, of which there is one more than blanks. */
/* Told: blanks of word is 1 and not 0 */
blanks(s) {
    auto i, count;

    i = 0;
    count = 1;
    while(char(s, i) != '*e') {
        if(char(s, i) == ' ')
            count++;
        i++;
    }
    return(count);
}
