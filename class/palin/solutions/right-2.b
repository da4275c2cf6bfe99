/* Tells whether a string reads the same from both ends, by a call for what is within. */
palin(s) {
    auto n;

    n = 0;
    while(char(s, n) != '*e')
        n++;
    return(within(s, 0, n - 1));
}

within(s, first, last)
    return(first >= last ? 1 : char(s, first) != char(s, last) ? 0 : within(s, first + 1, last - 1));
