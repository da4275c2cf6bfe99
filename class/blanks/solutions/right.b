/* The number of blanks in a string. */
blanks(s) {
    auto i, c, count;

    i = count = 0;
    while((c = char(s, i++)) != '*e')
        if(c == ' ')
            count++;
    return(count);
}
