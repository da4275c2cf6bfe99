/* vectors.b, print.b: fill, which leaves the words beside its own alone. */
main() {
    auto v 4;

    show(fill(v, 5, 7));
    fill(v + 1, 3, -1);
    show(v);
    fill(v, 1, 0);
    fill(v, 0, 9);
    fill(v, -1, 9);
    show(v);
    printf("%d", fill(v, 2, 1) == v);
}

show(v)
    printf("%d %d %d %d %d*n", v[0], v[1], v[2], v[3], v[4]);
/* vectors.b: vectors. It needs no other file. */

/* sort(v, n) sorts the n signed words v[0] to v[n - 1], the smallest first, and gives v.
   Known from: this project. */
sort(v, n)
    return(sortby(v, n, 0));

/* sortby(v, n, order) sorts the n words by a function, and gives v: order(a, b) is above 0 where a comes after b, as
   compare of strings.b is for strings. Words that are equal for it may change places. Where order is 0, they are signed
   numbers.
   Known from: this project. */
sortby(v, n, order) {
    auto gap, i, k, x;

    gap = n / 2;
    while(gap > 0) {
        i = gap;
        while(i < n) {
            x = v[i];
            k = i++ - gap;
            while(k < 0 ? 0 : (order ? order(v[k], x) > 0 : v[k] > x)) {
                v[k + gap] = v[k];
                k =- gap;
            }
            v[k + gap] = x;
        }
        gap =/ 2;
    }
    return(v);
}

/* fill(v, n, x) stores x in the n words v[0] to v[n - 1], and gives v. Where n is 0 or negative it stores none.
   Known from: C, as memset. */
fill(v, n, x) {
    while(n > 0)
        v[--n] = x;
    return(v);
}

/* givevec(v, n) gives the words v[0] to v[n], which are the program's own, to getvec. What it gave before is forgotten.
   Gives 0.
   Known from: this project. */
givevec(v, n) {
    extrn vecnext, vecleft;

    vecnext = v;
    vecleft = n + 1;
}

/* getvec(n) gives a vector v with the words v[0] to v[n], which no other call has. They aren't cleared. It gives 0
   where fewer words are left of what givevec gave, or n is negative.
   Known from: later compilers. */
getvec(n) {
    extrn vecnext, vecleft;

    if(n < 0 | n >= vecleft)
        return(0);
    vecleft =- n + 1;
    vecnext =+ n + 1;
    return(vecnext - n - 1);
}

/* rlsevec(v, n) takes back v, which getvec(n) gave, where it is the last one that wasn't taken back. Else its words are
   lost until givevec. Of 0, which is no vector, it takes nothing. Gives 0.
   Known from: later compilers. */
rlsevec(v, n) {
    extrn vecnext, vecleft;

    if(v ? v + n + 1 == vecnext : 0) {
        vecnext = v;
        vecleft =+ n + 1;
    }
}

vecnext;
vecleft;
/* print.b: what writes. It needs no other file. */

/* putstr(s) writes the string s. It writes nothing where s is 0, which is no string. Gives 0.
   Known from: Kernighan's tutorial. */
putstr(s) {
    auto i, c;

    i = 0;
    if(s)
        while((c = char(s, i++)) != '*e')
            putchar(c);
}

/* putnumb(n) writes the number n to the base 10, - first if it is negative. Gives 0.
   Known from: Kernighan's tutorial. */
putnumb(n)
    printn(n, 10);

/* putuns(n, base) writes the 16 bits of the word n as a number without a sign, to an even base from 2 to 16. The digits
   after 9 are a to f. Gives 0.
   Known from: this project. */
putuns(n, base) {
    auto rest;

    rest = (n >> 1) / (base / 2);
    if(rest)
        putuns(rest, base);
    putchar(char("0123456789abcdef", n - rest * base));
}

/* putoct(n) writes the 16 bits of the word n to the base 8, without a sign: -1 is 177777. Gives 0.
   Known from: this project. */
putoct(n)
    putuns(n, 8);

/* printf(form, a, b, ..) writes the string form, and in place of each of its items the next value: of %d as putnumb
   does, of %c as putchar, of %s as putstr, and of %u, %o and %x the 16 bits without a sign, to the base 10, 8 and 16.
   A number before the letter is the width, which is at most 32767: blanks come before what is shorter. A - before the
   width puts them after it. A 0 before the width makes 0s of them, which come after the - of a number. %% is a %. A %
   before anything else is written as it is, and takes no value. There are nine values at most; one that is missing is 0.
   Gives 0.
   Known from: the manual of 1972; the widths, %u and %x from C. */
printf(form, a, b, c, d, e, f, g, h, i) {
    auto at, from, taken, kind, flag, width;

    at = taken = 0;
    while((kind = char(form, at++)) != '*e')
        if(kind != '%')
            putchar(kind);
        else {
            from = at;
            flag = width = 0;
            kind = char(form, at++);
            if(kind == '-' | kind == '0') {
                flag = kind;
                kind = char(form, at++);
            }
            while(kind >= '0' & kind <= '9') {
                width = width * 10 + kind - '0';
                kind = char(form, at++);
            }
            if(prvalue(kind, taken < 9 ? (&a)[taken] : 0, width, flag))
                taken++;
            else {
                putchar('%');
                if(kind != '%' | at != from + 1)
                    at = from;
            }
        }
}

/* Writes a value for printf, and gives 1; or gives 0 for a kind that printf doesn't have. */
prvalue(kind, x, width, flag) {
    auto base, size;

    base = kind == 'o' ? 8 : kind == 'x' ? 16 : 10;
    if((size = prsize(kind, x, base)) < 0)
        return(0);
    if(kind == 'd' & x < 0 & flag == '0') {
        putchar('-');
        x = -x;
        kind = 'u';
    }
    while(flag != '-' & width > size) {
        putchar(flag ? '0' : ' ');
        width--;
    }
    if(kind == 'd')
        putnumb(x);
    else if(kind == 'c')
        putchar(x);
    else if(kind == 's')
        putstr(x);
    else
        putuns(x, base);
    while(width-- > size)
        putchar(' ');
    return(1);
}

/* How many characters printf writes of a value; -1 for a kind that it doesn't have. */
prsize(kind, x, base) {
    auto n;

    n = 0;
    switch kind {
        case 'c':
            return(x >> 8 ? 2 : 1);
        case 's':
            while(x ? char(x, n) != '*e' : 0)
                n++;
            return(n);
        case 'd':
            if(x < 0) {
                n = 1;
                x = -x;
            }
        case 'u': case 'o': case 'x':
            n++;
            while(x = (x >> 1) / (base / 2))
                n++;
            return(n);
    }
    return(-1);
}

/* dump(from, n) writes the n words from the address from on, each on a line: its address, the word with its sign, its
   bits to the base 16, and its two characters, with a . for each that has no shape. Gives 0.
   Known from: this project. */
dump(from, n) {
    auto i, c;

    while(n-- > 0) {
        printf("%5u %6d %04x ", from, *from, *from);
        i = 0;
        while(i < 2) {
            c = char(from, i++);
            putchar(c >= ' ' & c <= '~' ? c : '.');
        }
        putchar('*n');
        from++;
    }
}

/* flush() does nothing: the output is shown before the program waits for input. Gives 0.
   Known from: Kernighan's tutorial. */
flush()
    ;

/* assert(ok, text) gives ok if it isn't 0. Otherwise it writes assert: and the string text, and ends the run with the
   status 1.
   Known from: C. */
assert(ok, text) {
    if(ok)
        return(ok);
    printf("assert: %s*n", text);
    exit(1);
}
