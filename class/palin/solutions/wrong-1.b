/* Wrong: s[i] is a word with two characters, and no character. */
palin(s) {
    auto first, last;

    last = 0;
    while(s[last] != '*e')
        last++;
    first = 0;
    last--;
    while(first < last) {
        if(s[first] != s[last])
            return(0);
        first++;
        last--;
    }
    return(1);
}
