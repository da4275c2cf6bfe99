/* print.b, input.b, strings.b, numbers.b, vectors.b, test.b: all of them in one program: the lines of the input as
   numbers, the smallest first. */
words[20];

main() {
    extrn words;
    auto line 5, v, n, i;

    givevec(words, 20);
    v = getvec(9);
    n = 0;
    while(n < 10 ? getline(line, 11) : 0)
        if(length(line) > 0 & compare(line, "none") != 0)
            v[n++] = number(line);
    sort(v, n);
    i = 0;
    while(i < n)
        printf("%d ", v[i++]);
    printf("%d %d", min(v[0], 0), max(n, 3));
}
/* print.b: what writes. It needs no other file. */

/* putstr(s) writes the string s. It writes nothing where s is 0, which is no string. Gives 0.
   Known from: Kernighan's tutorial. */
putstr(s) {
    auto i, c;

    i = 0;
    if(s)
        while((c = char(s, i++)) != '*e')
            putchar(c);
}

/* putnumb(n) writes the number n to the base 10, - first if it is negative. Gives 0.
   Known from: Kernighan's tutorial. */
putnumb(n)
    printn(n, 10);

/* putuns(n, base) writes the 16 bits of the word n as a number without a sign, to an even base from 2 to 16. The digits
   after 9 are a to f. Gives 0.
   Known from: this project. */
putuns(n, base) {
    auto rest;

    rest = (n >> 1) / (base / 2);
    if(rest)
        putuns(rest, base);
    putchar(char("0123456789abcdef", n - rest * base));
}

/* putoct(n) writes the 16 bits of the word n to the base 8, without a sign: -1 is 177777. Gives 0.
   Known from: this project. */
putoct(n)
    putuns(n, 8);

/* printf(form, a, b, ..) writes the string form, and in place of each of its items the next value: of %d as putnumb
   does, of %c as putchar, of %s as putstr, and of %u, %o and %x the 16 bits without a sign, to the base 10, 8 and 16.
   A number before the letter is the width, which is at most 32767: blanks come before what is shorter. A - before the
   width puts them after it. A 0 before the width makes 0s of them, which come after the - of a number. %% is a %. A %
   before anything else is written as it is, and takes no value. There are nine values at most; one that is missing is 0.
   Gives 0.
   Known from: the manual of 1972; the widths, %u and %x from C. */
printf(form, a, b, c, d, e, f, g, h, i) {
    auto at, from, taken, kind, flag, width;

    at = taken = 0;
    while((kind = char(form, at++)) != '*e')
        if(kind != '%')
            putchar(kind);
        else {
            from = at;
            flag = width = 0;
            kind = char(form, at++);
            if(kind == '-' | kind == '0') {
                flag = kind;
                kind = char(form, at++);
            }
            while(kind >= '0' & kind <= '9') {
                width = width * 10 + kind - '0';
                kind = char(form, at++);
            }
            if(prvalue(kind, taken < 9 ? (&a)[taken] : 0, width, flag))
                taken++;
            else {
                putchar('%');
                if(kind != '%' | at != from + 1)
                    at = from;
            }
        }
}

/* Writes a value for printf, and gives 1; or gives 0 for a kind that printf doesn't have. */
prvalue(kind, x, width, flag) {
    auto base, size;

    base = kind == 'o' ? 8 : kind == 'x' ? 16 : 10;
    if((size = prsize(kind, x, base)) < 0)
        return(0);
    if(kind == 'd' & x < 0 & flag == '0') {
        putchar('-');
        x = -x;
        kind = 'u';
    }
    while(flag != '-' & width > size) {
        putchar(flag ? '0' : ' ');
        width--;
    }
    if(kind == 'd')
        putnumb(x);
    else if(kind == 'c')
        putchar(x);
    else if(kind == 's')
        putstr(x);
    else
        putuns(x, base);
    while(width-- > size)
        putchar(' ');
    return(1);
}

/* How many characters printf writes of a value; -1 for a kind that it doesn't have. */
prsize(kind, x, base) {
    auto n;

    n = 0;
    switch kind {
        case 'c':
            return(x >> 8 ? 2 : 1);
        case 's':
            while(x ? char(x, n) != '*e' : 0)
                n++;
            return(n);
        case 'd':
            if(x < 0) {
                n = 1;
                x = -x;
            }
        case 'u': case 'o': case 'x':
            n++;
            while(x = (x >> 1) / (base / 2))
                n++;
            return(n);
    }
    return(-1);
}

/* dump(from, n) writes the n words from the address from on, each on a line: its address, the word with its sign, its
   bits to the base 16, and its two characters, with a . for each that has no shape. Gives 0.
   Known from: this project. */
dump(from, n) {
    auto i, c;

    while(n-- > 0) {
        printf("%5u %6d %04x ", from, *from, *from);
        i = 0;
        while(i < 2) {
            c = char(from, i++);
            putchar(c >= ' ' & c <= '~' ? c : '.');
        }
        putchar('*n');
        from++;
    }
}

/* flush() does nothing: the output is shown before the program waits for input. Gives 0.
   Known from: Kernighan's tutorial. */
flush()
    ;

/* assert(ok, text) gives ok if it isn't 0. Otherwise it writes assert: and the string text, and ends the run with the
   status 1.
   Known from: C. */
assert(ok, text) {
    if(ok)
        return(ok);
    printf("assert: %s*n", text);
    exit(1);
}
/* input.b: what reads. It needs no other file. */

/* getline(s, most) reads a line into the string s, without its newline, and gives s. At the end of the input it gives
   0, and s is empty. The last line needs no newline. Of a line with more than most characters, the first most are kept;
   most is 1 at least. They take the words s[0] to s[most / 2].
   Known from: C. */
getline(s, most) {
    auto i, c;

    i = 0;
    while((c = getchar()) != '*n' & c != '*e')
        if(i < most)
            lchar(s, i++, c);
    lchar(s, i, '*e');
    return(c == '*e' & i == 0 ? 0 : s);
}

/* getstr(s) does the same, and keeps 32767 characters. s has to have room for each line that comes.
   Known from: Kernighan's tutorial. */
getstr(s)
    return(getline(s, 32767));

/* getnum(p) reads a number to the base 10 into the word at the address p, and gives 1. What comes before the number is
   skipped, and the character after it is taken, too. A - directly before its first digit makes it negative. At the end
   of the input it gives 0, and the word stays. A number that no word holds wraps around, as all arithmetic does.
   Known from: this project. */
getnum(p) {
    auto c, before, n;

    before = 0;
    while((c = getchar()) < '0' | c > '9') {
        if(c == '*e')
            return(0);
        before = c;
    }
    n = 0;
    while(c >= '0' & c <= '9') {
        n = n * 10 + c - '0';
        c = getchar();
    }
    *p = before == '-' ? -n : n;
    return(1);
}
/* strings.b: strings, which end in *e, and their characters. It needs no other file. A string of n characters takes
   n / 2 + 1 words: those of auto v 10 hold up to 21 characters. */

/* length(s) gives the number of characters of s, without its end.
   Known from: later compilers. */
length(s) {
    auto n;

    n = 0;
    while(char(s, n) != '*e')
        n++;
    return(n);
}

/* copy(to, from) copies the string from with its end to to, and gives to.
   Known from: later compilers. */
copy(to, from) {
    auto i;

    i = 0;
    while(lchar(to, i, char(from, i)) != '*e')
        i++;
    return(to);
}

/* concat(to, a, b, ..) puts up to ten strings into to, one after the other, and gives to. to has to have room for all
   of their characters and one end. It may be the first of them, which is then made longer, and no other.
   Known from: Kernighan's tutorial. */
concat(to, a, b, c, d, e, f, g, h, i, j) {
    auto n, from, at, k, ch;

    n = at = 0;
    while(n < 10 ? (from = (&a)[n++]) : 0) {
        k = 0;
        while((ch = char(from, k++)) != '*e')
            lchar(to, at++, ch);
    }
    lchar(to, at, '*e');
    return(to);
}

/* compare(s, t) gives 0 if the strings are equal, -1 if s comes before t, and 1 if it comes after t. The first
   characters that differ decide; what ends first comes first.
   Known from: later compilers. */
compare(s, t) {
    auto i, c, d;

    i = 0;
    while((c = char(s, i)) == (d = char(t, i++)))
        if(c == '*e')
            return(0);
    if(c == '*e')
        return(-1);
    return(d == '*e' | c > d ? 1 : -1);
}

/* index(s, t) gives the index in s at which the string t is found first, or -1 where it isn't in s.
   Known from: C. */
index(s, t) {
    auto i, k, c;

    i = 0;
    while(1) {
        k = 0;
        while((c = char(t, k)) != '*e' & char(s, i + k) == c)
            k++;
        if(c == '*e')
            return(i);
        if(char(s, i++) == '*e')
            return(-1);
    }
}

/* upper(c) gives the capital of a letter from a to z, and any other word as it is.
   Known from: C, as toupper. */
upper(c)
    return(c >= 'a' & c <= 'z' ? c - 'a' + 'A' : c);

/* lower(c) gives the small letter of a capital from A to Z, and any other word as it is.
   Known from: C, as tolower. */
lower(c)
    return(c >= 'A' & c <= 'Z' ? c - 'A' + 'a' : c);

/* isdigit(c) gives 1 for the characters 0 to 9, and 0 for any other word.
   Known from: C. */
isdigit(c)
    return(c >= '0' & c <= '9');

/* isalpha(c) gives 1 for the letters A to Z and a to z, and 0 for any other word.
   Known from: C. */
isalpha(c)
    return(upper(c) >= 'A' & upper(c) <= 'Z');
/* numbers.b: numbers. It needs no other file. */

/* number(s) gives the number that the string s begins with: blanks or tabs, a - or a +, and digits to the base 10. It
   gives 0 where there is no digit. A number that no word holds wraps around, as all arithmetic does.
   Known from: this project. */
number(s) {
    auto i, c, sign, n;

    i = n = 0;
    while((c = char(s, i)) == ' ' | c == '*t')
        i++;
    sign = c == '-' ? -1 : 1;
    if(c == '-' | c == '+')
        i++;
    while((c = char(s, i++)) >= '0' & c <= '9')
        n = n * 10 + c - '0';
    return(sign * n);
}

/* abs(n) gives n without its sign. -32768 stays, since no word holds 32768.
   Known from: later compilers. */
abs(n)
    return(n < 0 ? -n : n);

/* min(a, b) gives the smaller one of two signed numbers.
   Known from: later compilers. */
min(a, b)
    return(a < b ? a : b);

/* max(a, b) gives the greater one of two signed numbers.
   Known from: later compilers. */
max(a, b)
    return(a > b ? a : b);

/* rand() gives a number from 0 to 32767, another one at each call. After 65535 calls the same numbers come again, in
   the same order: each of them twice, but 0 once. They are the same in each run, unless the program sets randseed, to
   any word.
   Known from: later compilers; randseed is this project's. */
rand() {
    extrn randseed;
    auto x, y;

    x = randseed ? randseed : 1972;
    y = x << 7;
    x = (x | y) - (x & y);
    y = x >> 9;
    x = (x | y) - (x & y);
    y = x << 8;
    randseed = (x | y) - (x & y);
    return(randseed & 077777);
}

/* random(n) gives a number from 0 to n - 1, made by rand; 0 where n is 0 or negative.
   Known from: later languages. */
random(n)
    return(n > 0 ? rand() % n : 0);

randseed;
/* vectors.b: vectors. It needs no other file. */

/* sort(v, n) sorts the n signed words v[0] to v[n - 1], the smallest first, and gives v.
   Known from: this project. */
sort(v, n)
    return(sortby(v, n, 0));

/* sortby(v, n, order) sorts the n words by a function, and gives v: order(a, b) is above 0 where a comes after b, as
   compare of strings.b is for strings. Words that are equal for it may change places. Where order is 0, they are signed
   numbers.
   Known from: this project. */
sortby(v, n, order) {
    auto gap, i, k, x;

    gap = n / 2;
    while(gap > 0) {
        i = gap;
        while(i < n) {
            x = v[i];
            k = i++ - gap;
            while(k < 0 ? 0 : (order ? order(v[k], x) > 0 : v[k] > x)) {
                v[k + gap] = v[k];
                k =- gap;
            }
            v[k + gap] = x;
        }
        gap =/ 2;
    }
    return(v);
}

/* fill(v, n, x) stores x in the n words v[0] to v[n - 1], and gives v. Where n is 0 or negative it stores none.
   Known from: C, as memset. */
fill(v, n, x) {
    while(n > 0)
        v[--n] = x;
    return(v);
}

/* givevec(v, n) gives the words v[0] to v[n], which are the program's own, to getvec. What it gave before is forgotten.
   Gives 0.
   Known from: this project. */
givevec(v, n) {
    extrn vecnext, vecleft;

    vecnext = v;
    vecleft = n + 1;
}

/* getvec(n) gives a vector v with the words v[0] to v[n], which no other call has. They aren't cleared. It gives 0
   where fewer words are left of what givevec gave, or n is negative.
   Known from: later compilers. */
getvec(n) {
    extrn vecnext, vecleft;

    if(n < 0 | n >= vecleft)
        return(0);
    vecleft =- n + 1;
    vecnext =+ n + 1;
    return(vecnext - n - 1);
}

/* rlsevec(v, n) takes back v, which getvec(n) gave, where it is the last one that wasn't taken back. Else its words are
   lost until givevec. Of 0, which is no vector, it takes nothing. Gives 0.
   Known from: later compilers. */
rlsevec(v, n) {
    extrn vecnext, vecleft;

    if(v ? v + n + 1 == vecnext : 0) {
        vecnext = v;
        vecleft =+ n + 1;
    }
}

vecnext;
vecleft;
/* test.b: tests of functions, for exercises. It needs no other file. A program calls test, teststr and testvec, and tests
   at its end. */

/* test(name, got, wanted) counts a test, which is right where the two words are equal. Else it writes a line with both,
   after the string name. Gives 1 where it is right, else 0.
   Known from: this project. */
test(name, got, wanted) {
    if(got == wanted)
        return(testput(1, name));
    testput(0, name);
    testnums(got, wanted);
}

/* teststr(name, got, wanted) does the same with two strings. Of each it writes at most 40 characters. 0 is no string.
   Known from: this project. */
teststr(name, got, wanted) {
    auto i;

    i = 0;
    while(got != 0 & char(got, i) == char(wanted, i))
        if(char(got, i++) == '*e')
            return(testput(1, name));
    testput(0, name);
    testsay(" is ");
    testquot(got);
    testsay(" and not ");
    testquot(wanted);
    putchar('*n');
}

/* testvec(name, got, n, a, b, ..) does the same with the n words got[0] to got[n - 1], which should be a, b and so on, at
   most eight. It writes the first index at which they differ, and the two words.
   Known from: this project. */
testvec(name, got, n, a, b, c, d, e, f, g, h) {
    auto i;

    i = 0;
    while(i < n ? got[i] == (&a)[i] : 0)
        i++;
    if(i >= n)
        return(testput(1, name));
    testput(0, name);
    putchar('[');
    printn(i, 10);
    putchar(']');
    testnums(got[i], (&a)[i]);
}

/* tests() writes how many tests were right and how many wrong, and ends the run, with the status 0 where none was wrong
   and else 1.
   Known from: this project. */
tests() {
    extrn testok, testbad;

    printn(testok, 10);
    testsay(" right, ");
    printn(testbad, 10);
    testsay(" wrong*n");
    exit(testbad != 0);
}

/* Counts a test, and gives whether it is right. Of a wrong one it writes how its line begins. */
testput(ok, name) {
    extrn testok, testbad;

    if(ok)
        testok++;
    else {
        testbad++;
        testsay("wrong: ");
        testsay(name);
    }
    return(ok);
}

/* Writes the two words of a wrong test, and ends its line. */
testnums(got, wanted) {
    testsay(" is ");
    printn(got, 10);
    testsay(" and not ");
    printn(wanted, 10);
    putchar('*n');
}

/* Writes a string. */
testsay(s) {
    auto i, c;

    i = 0;
    while((c = char(s, i++)) != '*e')
        putchar(c);
}

/* Writes a string in quotes, or its first 40 characters and two dots. */
testquot(s) {
    auto i, c;

    if(s == 0) {
        testsay("no string");
        return;
    }
    putchar('"');
    i = 0;
    while((c = char(s, i)) != '*e' & i < 40) {
        putchar(c);
        i++;
    }
    testsay(c == '*e' ? "*"" : "*"..");
}

testok;
testbad;
