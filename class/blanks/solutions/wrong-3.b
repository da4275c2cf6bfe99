/* Wrong: s[i] is a word with two characters, and no character. */
blanks(s) {
    auto i, count;

    i = count = 0;
    while(s[i] != '*e') {
        if(s[i] == ' ')
            count++;
        i++;
    }
    return(count);
}
