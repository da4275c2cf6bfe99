/* strings.b: strings, which end in *e, and their characters. It needs no other file. A string of n characters takes
   n / 2 + 1 words: those of auto v 10 hold up to 21 characters. */

/* length(s) gives the number of characters of s, without its end.
   Known from: later compilers. */
length(s) {
    auto n;

    n = 0;
    while(char(s, n) != '*e')
        n++;
    return(n);
}

/* copy(to, from) copies the string from with its end to to, and gives to.
   Known from: later compilers. */
copy(to, from) {
    auto i;

    i = 0;
    while(lchar(to, i, char(from, i)) != '*e')
        i++;
    return(to);
}

/* concat(to, a, b, ..) puts up to ten strings into to, one after the other, and gives to. to has to have room for all
   of their characters and one end. It may be the first of them, which is then made longer, and no other.
   Known from: Kernighan's tutorial. */
concat(to, a, b, c, d, e, f, g, h, i, j) {
    auto n, from, at, k, ch;

    n = at = 0;
    while(n < 10 ? (from = (&a)[n++]) : 0) {
        k = 0;
        while((ch = char(from, k++)) != '*e')
            lchar(to, at++, ch);
    }
    lchar(to, at, '*e');
    return(to);
}

/* compare(s, t) gives 0 if the strings are equal, -1 if s comes before t, and 1 if it comes after t. The first
   characters that differ decide; what ends first comes first.
   Known from: later compilers. */
compare(s, t) {
    auto i, c, d;

    i = 0;
    while((c = char(s, i)) == (d = char(t, i++)))
        if(c == '*e')
            return(0);
    if(c == '*e')
        return(-1);
    return(d == '*e' | c > d ? 1 : -1);
}

/* index(s, t) gives the index in s at which the string t is found first, or -1 where it isn't in s.
   Known from: C. */
index(s, t) {
    auto i, k, c;

    i = 0;
    while(1) {
        k = 0;
        while((c = char(t, k)) != '*e' & char(s, i + k) == c)
            k++;
        if(c == '*e')
            return(i);
        if(char(s, i++) == '*e')
            return(-1);
    }
}

/* upper(c) gives the capital of a letter from a to z, and any other word as it is.
   Known from: C, as toupper. */
upper(c)
    return(c >= 'a' & c <= 'z' ? c - 'a' + 'A' : c);

/* lower(c) gives the small letter of a capital from A to Z, and any other word as it is.
   Known from: C, as tolower. */
lower(c)
    return(c >= 'A' & c <= 'Z' ? c - 'A' + 'a' : c);

/* isdigit(c) gives 1 for the characters 0 to 9, and 0 for any other word.
   Known from: C. */
isdigit(c)
    return(c >= '0' & c <= '9');

/* isalpha(c) gives 1 for the letters A to Z and a to z, and 0 for any other word.
   Known from: C. */
isalpha(c)
    return(upper(c) >= 'A' & upper(c) <= 'Z');
