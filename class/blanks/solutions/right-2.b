/* The number of blanks in a string, from its index i on. */
blanks(s)
    return(after(s, 0));

after(s, i)
    return(char(s, i) == '*e' ? 0 : (char(s, i) == ' ') + after(s, i + 1));
