main()
    printf("%d %d %d %d", number("1972"), number("  -12 apples"), number("+7"), number("seven"));
/* numbers.b: numbers. It needs no other file. */

/* number(s) gives the number that the string s begins with: blanks or tabs, a - or a +, and digits to the base 10. It
   gives 0 where there is no digit. A number that no word holds wraps around, as all arithmetic does.
   Known from: this project. */
number(s) {
    auto i, c, sign, n;

    i = n = 0;
    while((c = char(s, i)) == ' ' | c == '*t')
        i++;
    sign = c == '-' ? -1 : 1;
    if(c == '-' | c == '+')
        i++;
    while((c = char(s, i++)) >= '0' & c <= '9')
        n = n * 10 + c - '0';
    return(sign * n);
}

/* abs(n) gives n without its sign. -32768 stays, since no word holds 32768.
   Known from: later compilers. */
abs(n)
    return(n < 0 ? -n : n);

/* min(a, b) gives the smaller one of two signed numbers.
   Known from: later compilers. */
min(a, b)
    return(a < b ? a : b);

/* max(a, b) gives the greater one of two signed numbers.
   Known from: later compilers. */
max(a, b)
    return(a > b ? a : b);

/* rand() gives a number from 0 to 32767, another one at each call. After 65535 calls the same numbers come again, in
   the same order: each of them twice, but 0 once. They are the same in each run, unless the program sets randseed, to
   any word.
   Known from: later compilers; randseed is this project's. */
rand() {
    extrn randseed;
    auto x, y;

    x = randseed ? randseed : 1972;
    y = x << 7;
    x = (x | y) - (x & y);
    y = x >> 9;
    x = (x | y) - (x & y);
    y = x << 8;
    randseed = (x | y) - (x & y);
    return(randseed & 077777);
}

/* random(n) gives a number from 0 to n - 1, made by rand; 0 where n is 0 or negative.
   Known from: later languages. */
random(n)
    return(n > 0 ? rand() % n : 0);

randseed;
/* print.b: what writes. It needs no other file. */

/* putstr(s) writes the string s. It writes nothing where s is 0, which is no string. Gives 0.
   Known from: Kernighan's tutorial. */
putstr(s) {
    auto i, c;

    i = 0;
    if(s)
        while((c = char(s, i++)) != '*e')
            putchar(c);
}

/* putnumb(n) writes the number n to the base 10, - first if it is negative. Gives 0.
   Known from: Kernighan's tutorial. */
putnumb(n)
    printn(n, 10);

/* putuns(n, base) writes the 16 bits of the word n as a number without a sign, to an even base from 2 to 16. The digits
   after 9 are a to f. Gives 0.
   Known from: this project. */
putuns(n, base) {
    auto rest;

    rest = (n >> 1) / (base / 2);
    if(rest)
        putuns(rest, base);
    putchar(char("0123456789abcdef", n - rest * base));
}

/* putoct(n) writes the 16 bits of the word n to the base 8, without a sign: -1 is 177777. Gives 0.
   Known from: this project. */
putoct(n)
    putuns(n, 8);

/* printf(form, a, b, ..) writes the string form, and in place of each of its items the next value: of %d as putnumb
   does, of %c as putchar, of %s as putstr, and of %u, %o and %x the 16 bits without a sign, to the base 10, 8 and 16.
   A number before the letter is the width, which is at most 32767: blanks come before what is shorter. A - before the
   width puts them after it. A 0 before the width makes 0s of them, which come after the - of a number. %% is a %. A %
   before anything else is written as it is, and takes no value. There are nine values at most; one that is missing is 0.
   Gives 0.
   Known from: the manual of 1972; the widths, %u and %x from C. */
printf(form, a, b, c, d, e, f, g, h, i) {
    auto at, from, taken, kind, flag, width;

    at = taken = 0;
    while((kind = char(form, at++)) != '*e')
        if(kind != '%')
            putchar(kind);
        else {
            from = at;
            flag = width = 0;
            kind = char(form, at++);
            if(kind == '-' | kind == '0') {
                flag = kind;
                kind = char(form, at++);
            }
            while(kind >= '0' & kind <= '9') {
                width = width * 10 + kind - '0';
                kind = char(form, at++);
            }
            if(prvalue(kind, taken < 9 ? (&a)[taken] : 0, width, flag))
                taken++;
            else {
                putchar('%');
                if(kind != '%' | at != from + 1)
                    at = from;
            }
        }
}

/* Writes a value for printf, and gives 1; or gives 0 for a kind that printf doesn't have. */
prvalue(kind, x, width, flag) {
    auto base, size;

    base = kind == 'o' ? 8 : kind == 'x' ? 16 : 10;
    if((size = prsize(kind, x, base)) < 0)
        return(0);
    if(kind == 'd' & x < 0 & flag == '0') {
        putchar('-');
        x = -x;
        kind = 'u';
    }
    while(flag != '-' & width > size) {
        putchar(flag ? '0' : ' ');
        width--;
    }
    if(kind == 'd')
        putnumb(x);
    else if(kind == 'c')
        putchar(x);
    else if(kind == 's')
        putstr(x);
    else
        putuns(x, base);
    while(width-- > size)
        putchar(' ');
    return(1);
}

/* How many characters printf writes of a value; -1 for a kind that it doesn't have. */
prsize(kind, x, base) {
    auto n;

    n = 0;
    switch kind {
        case 'c':
            return(x >> 8 ? 2 : 1);
        case 's':
            while(x ? char(x, n) != '*e' : 0)
                n++;
            return(n);
        case 'd':
            if(x < 0) {
                n = 1;
                x = -x;
            }
        case 'u': case 'o': case 'x':
            n++;
            while(x = (x >> 1) / (base / 2))
                n++;
            return(n);
    }
    return(-1);
}

/* dump(from, n) writes the n words from the address from on, each on a line: its address, the word with its sign, its
   bits to the base 16, and its two characters, with a . for each that has no shape. Gives 0.
   Known from: this project. */
dump(from, n) {
    auto i, c;

    while(n-- > 0) {
        printf("%5u %6d %04x ", from, *from, *from);
        i = 0;
        while(i < 2) {
            c = char(from, i++);
            putchar(c >= ' ' & c <= '~' ? c : '.');
        }
        putchar('*n');
        from++;
    }
}

/* flush() does nothing: the output is shown before the program waits for input. Gives 0.
   Known from: Kernighan's tutorial. */
flush()
    ;

/* assert(ok, text) gives ok if it isn't 0. Otherwise it writes assert: and the string text, and ends the run with the
   status 1.
   Known from: C. */
assert(ok, text) {
    if(ok)
        return(ok);
    printf("assert: %s*n", text);
    exit(1);
}
