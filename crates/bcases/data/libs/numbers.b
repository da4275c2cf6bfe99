/* numbers.b: numbers. It needs no other file. */

/* number(s) gives the number that the string s begins with: blanks or tabs, a - or a +, and digits to the base 10. It
   gives 0 where there is no digit. A number that no word holds wraps around, as all arithmetic does.
   Known from: this project. */
number(s) {
    auto i, c, sign, n;

    i = n = 0;
    while((c = char(s, i)) == ' ' | c == '*t')
        i++;
    sign = c == '-' ? -1 : 1;
    if(c == '-' | c == '+')
        i++;
    while((c = char(s, i++)) >= '0' & c <= '9')
        n = n * 10 + c - '0';
    return(sign * n);
}

/* abs(n) gives n without its sign. -32768 stays, since no word holds 32768.
   Known from: later compilers. */
abs(n)
    return(n < 0 ? -n : n);

/* min(a, b) gives the smaller one of two signed numbers.
   Known from: later compilers. */
min(a, b)
    return(a < b ? a : b);

/* max(a, b) gives the greater one of two signed numbers.
   Known from: later compilers. */
max(a, b)
    return(a > b ? a : b);

/* rand() gives a number from 0 to 32767, another one at each call. After 65535 calls the same numbers come again, in
   the same order: each of them twice, but 0 once. They are the same in each run, unless the program sets randseed, to
   any word.
   Known from: later compilers; randseed is this project's. */
rand() {
    extrn randseed;
    auto x, y;

    x = randseed ? randseed : 1972;
    y = x << 7;
    x = (x | y) - (x & y);
    y = x >> 9;
    x = (x | y) - (x & y);
    y = x << 8;
    randseed = (x | y) - (x & y);
    return(randseed & 077777);
}

/* random(n) gives a number from 0 to n - 1, made by rand; 0 where n is 0 or negative.
   Known from: later languages. */
random(n)
    return(n > 0 ? rand() % n : 0);

randseed;
