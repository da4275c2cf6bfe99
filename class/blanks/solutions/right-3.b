/* The number of blanks in a string. */
blanks(s) {
    auto i, c, count;

    assert(s, "blanks: this is no string");
    i = count = 0;
    while((c = char(s, i++)) != '*e')
        if(c == ' ')
            count++;
    return(count);
}
