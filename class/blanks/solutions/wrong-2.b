/* Wrong: the condition assigns, so each character counts. */
/* Told: this condition assigns */
blanks(s) {
    auto i, c, count;

    i = count = 0;
    while((c = char(s, i++)) != '*e')
        if(c = ' ')
            count++;
    return(count);
}
