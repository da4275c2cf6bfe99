/* input.b: the numbers of the input, and what getnum gives at its end, where the word stays. */
main() {
    auto n;

    n = 1972;
    while(getnum(&n)) {
        printn(n, 10);
        putchar(' ');
    }
    printn(n, 10);
    putchar(' ');
    printn(getnum(&n), 10);
}
/* input.b: what reads. It needs no other file. */

/* getline(s, most) reads a line into the string s, without its newline, and gives s. At the end of the input it gives
   0, and s is empty. The last line needs no newline. Of a line with more than most characters, the first most are kept;
   most is 1 at least. They take the words s[0] to s[most / 2].
   Known from: C. */
getline(s, most) {
    auto i, c;

    i = 0;
    while((c = getchar()) != '*n' & c != '*e')
        if(i < most)
            lchar(s, i++, c);
    lchar(s, i, '*e');
    return(c == '*e' & i == 0 ? 0 : s);
}

/* getstr(s) does the same, and keeps 32767 characters. s has to have room for each line that comes.
   Known from: Kernighan's tutorial. */
getstr(s)
    return(getline(s, 32767));

/* getnum(p) reads a number to the base 10 into the word at the address p, and gives 1. What comes before the number is
   skipped, and the character after it is taken, too. A - directly before its first digit makes it negative. At the end
   of the input it gives 0, and the word stays. A number that no word holds wraps around, as all arithmetic does.
   Known from: this project. */
getnum(p) {
    auto c, before, n;

    before = 0;
    while((c = getchar()) < '0' | c > '9') {
        if(c == '*e')
            return(0);
        before = c;
    }
    n = 0;
    while(c >= '0' & c <= '9') {
        n = n * 10 + c - '0';
        c = getchar();
    }
    *p = before == '-' ? -n : n;
    return(1);
}
