main() {
    auto s, i, c;

    s = "x2-y2";
    i = 0;
    while((c = char(s, i++)) != '*e')
        printf("%c%d%d ", upper(c), isalpha(c), isdigit(c));
}
/* strings.b: strings, which end in *e, and their characters. It needs no other file. A string of n characters takes
   n / 2 + 1 words: those of auto v 10 hold up to 21 characters. */

/* length(s) gives the number of characters of s, without its end.
   Known from: later compilers. */
length(s) {
    auto n;

    n = 0;
    while(char(s, n) != '*e')
        n++;
    return(n);
}

/* copy(to, from) copies the string from with its end to to, and gives to.
   Known from: later compilers. */
copy(to, from) {
    auto i;

    i = 0;
    while(lchar(to, i, char(from, i)) != '*e')
        i++;
    return(to);
}

/* concat(to, a, b, ..) puts up to ten strings into to, one after the other, and gives to. to has to have room for all
   of their characters and one end. It may be the first of them, which is then made longer, and no other.
   Known from: Kernighan's tutorial. */
concat(to, a, b, c, d, e, f, g, h, i, j) {
    auto n, from, at, k, ch;

    n = at = 0;
    while(n < 10 ? (from = (&a)[n++]) : 0) {
        k = 0;
        while((ch = char(from, k++)) != '*e')
            lchar(to, at++, ch);
    }
    lchar(to, at, '*e');
    return(to);
}

/* compare(s, t) gives 0 if the strings are equal, -1 if s comes before t, and 1 if it comes after t. The first
   characters that differ decide; what ends first comes first.
   Known from: later compilers. */
compare(s, t) {
    auto i, c, d;

    i = 0;
    while((c = char(s, i)) == (d = char(t, i++)))
        if(c == '*e')
            return(0);
    if(c == '*e')
        return(-1);
    return(d == '*e' | c > d ? 1 : -1);
}

/* index(s, t) gives the index in s at which the string t is found first, or -1 where it isn't in s.
   Known from: C. */
index(s, t) {
    auto i, k, c;

    i = 0;
    while(1) {
        k = 0;
        while((c = char(t, k)) != '*e' & char(s, i + k) == c)
            k++;
        if(c == '*e')
            return(i);
        if(char(s, i++) == '*e')
            return(-1);
    }
}

/* upper(c) gives the capital of a letter from a to z, and any other word as it is.
   Known from: C, as toupper. */
upper(c)
    return(c >= 'a' & c <= 'z' ? c - 'a' + 'A' : c);

/* lower(c) gives the small letter of a capital from A to Z, and any other word as it is.
   Known from: C, as tolower. */
lower(c)
    return(c >= 'A' & c <= 'Z' ? c - 'A' + 'a' : c);

/* isdigit(c) gives 1 for the characters 0 to 9, and 0 for any other word.
   Known from: C. */
isdigit(c)
    return(c >= '0' & c <= '9');

/* isalpha(c) gives 1 for the letters A to Z and a to z, and 0 for any other word.
   Known from: C. */
isalpha(c)
    return(upper(c) >= 'A' & upper(c) <= 'Z');
/* print.b: what writes. It needs no other file. */

/* putstr(s) writes the string s. It writes nothing where s is 0, which is no string. Gives 0.
   Known from: Kernighan's tutorial. */
putstr(s) {
    auto i, c;

    i = 0;
    if(s)
        while((c = char(s, i++)) != '*e')
            putchar(c);
}

/* putnumb(n) writes the number n to the base 10, - first if it is negative. Gives 0.
   Known from: Kernighan's tutorial. */
putnumb(n)
    printn(n, 10);

/* putuns(n, base) writes the 16 bits of the word n as a number without a sign, to an even base from 2 to 16. The digits
   after 9 are a to f. Gives 0.
   Known from: this project. */
putuns(n, base) {
    auto rest;

    rest = (n >> 1) / (base / 2);
    if(rest)
        putuns(rest, base);
    putchar(char("0123456789abcdef", n - rest * base));
}

/* putoct(n) writes the 16 bits of the word n to the base 8, without a sign: -1 is 177777. Gives 0.
   Known from: this project. */
putoct(n)
    putuns(n, 8);

/* printf(form, a, b, ..) writes the string form, and in place of each of its items the next value: of %d as putnumb
   does, of %c as putchar, of %s as putstr, and of %u, %o and %x the 16 bits without a sign, to the base 10, 8 and 16.
   A number before the letter is the width, which is at most 32767: blanks come before what is shorter. A - before the
   width puts them after it. A 0 before the width makes 0s of them, which come after the - of a number. %% is a %. A %
   before anything else is written as it is, and takes no value. There are nine values at most; one that is missing is 0.
   Gives 0.
   Known from: the manual of 1972; the widths, %u and %x from C. */
printf(form, a, b, c, d, e, f, g, h, i) {
    auto at, from, taken, kind, flag, width;

    at = taken = 0;
    while((kind = char(form, at++)) != '*e')
        if(kind != '%')
            putchar(kind);
        else {
            from = at;
            flag = width = 0;
            kind = char(form, at++);
            if(kind == '-' | kind == '0') {
                flag = kind;
                kind = char(form, at++);
            }
            while(kind >= '0' & kind <= '9') {
                width = width * 10 + kind - '0';
                kind = char(form, at++);
            }
            if(prvalue(kind, taken < 9 ? (&a)[taken] : 0, width, flag))
                taken++;
            else {
                putchar('%');
                if(kind != '%' | at != from + 1)
                    at = from;
            }
        }
}

/* Writes a value for printf, and gives 1; or gives 0 for a kind that printf doesn't have. */
prvalue(kind, x, width, flag) {
    auto base, size;

    base = kind == 'o' ? 8 : kind == 'x' ? 16 : 10;
    if((size = prsize(kind, x, base)) < 0)
        return(0);
    if(kind == 'd' & x < 0 & flag == '0') {
        putchar('-');
        x = -x;
        kind = 'u';
    }
    while(flag != '-' & width > size) {
        putchar(flag ? '0' : ' ');
        width--;
    }
    if(kind == 'd')
        putnumb(x);
    else if(kind == 'c')
        putchar(x);
    else if(kind == 's')
        putstr(x);
    else
        putuns(x, base);
    while(width-- > size)
        putchar(' ');
    return(1);
}

/* How many characters printf writes of a value; -1 for a kind that it doesn't have. */
prsize(kind, x, base) {
    auto n;

    n = 0;
    switch kind {
        case 'c':
            return(x >> 8 ? 2 : 1);
        case 's':
            while(x ? char(x, n) != '*e' : 0)
                n++;
            return(n);
        case 'd':
            if(x < 0) {
                n = 1;
                x = -x;
            }
        case 'u': case 'o': case 'x':
            n++;
            while(x = (x >> 1) / (base / 2))
                n++;
            return(n);
    }
    return(-1);
}

/* dump(from, n) writes the n words from the address from on, each on a line: its address, the word with its sign, its
   bits to the base 16, and its two characters, with a . for each that has no shape. Gives 0.
   Known from: this project. */
dump(from, n) {
    auto i, c;

    while(n-- > 0) {
        printf("%5u %6d %04x ", from, *from, *from);
        i = 0;
        while(i < 2) {
            c = char(from, i++);
            putchar(c >= ' ' & c <= '~' ? c : '.');
        }
        putchar('*n');
        from++;
    }
}

/* flush() does nothing: the output is shown before the program waits for input. Gives 0.
   Known from: Kernighan's tutorial. */
flush()
    ;

/* assert(ok, text) gives ok if it isn't 0. Otherwise it writes assert: and the string text, and ends the run with the
   status 1.
   Known from: C. */
assert(ok, text) {
    if(ok)
        return(ok);
    printf("assert: %s*n", text);
    exit(1);
}
