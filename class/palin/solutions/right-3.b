/* Tells whether a string reads the same from both ends. */
palin(s) {
    auto first, last;

    assert(s, "palin: this is no string");
    last = 0;
    while(char(s, last) != '*e')
        last++;
    first = 0;
    last--;
    while(first < last) {
        if(char(s, first) != char(s, last))
            return(0);
        first++;
        last--;
    }
    return(1);
}
