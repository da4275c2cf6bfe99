/* Mistakes in other spellings: negated conditions, goto, pointers, operands of & and |. */

make1(n) {
    auto line 20, p;
    lchar(line, 0, n);
    lchar(line, 1, '*e');
    p = line;
    return(p); /* told */
}
main() { putchar(char(make1('q'), 0)); }

pick2(n) {
    auto a 3;
    a[0] = n;
    return(n > 0 ? a : 0); /* told */
}
run2() { printn(*pick2(3), 10); }

new3(n) {
    auto x, p;
    x = n;
    p = &x;
    return(p); /* told */
}
run3() { printn(*new3(3), 10); }

show4(s) {
    auto i, c;
    i = 0;
    while(1) { c = char(s, i++);
        if(c == 0) /* told */
            return;
        putchar(c);
    }
}
run4() { show4("four"); }

run5() {
    auto c;
    while(-1 != (c = getchar())) /* told */
        putchar(c);
}

run6() {
    auto c;
    c = getchar();
    while(!(c < 0)) { /* told */
        putchar(c);
        c = getchar();
    }
}

run7() {
    auto s 5, i;
    i = 0;
    lchar(s, i, "x"); /* told */
    lchar(s, i + 1, '*e');
    putchar(char(s, 0));
}

isyes8(s) {
    if("yes" == s) /* told */
        return(1);
    return(0);
}
run8() { printn(isyes8("yes"), 10); }

run9() {
    auto n;
    n = 3;
    n == n + 1; /* told */
    printn(n, 10);
}

run10() {
    auto n, c;
    n = 3; c = getchar();
    if(c == 'x')
        (n == 0); /* told */
    printn(n, 10);
}

run11() {
    auto n;
    n = 700;
    if(1 == n & 3) /* told */
        putchar('1');
    while(n > 200) n--;
}

run12() {
    auto flags, x;
    flags = getchar();
    x = (flags & 4 != 0) ? 1 : 2; /* told */
    printn(x, 10);
}

run13() {
    auto n;
    n = getchar() - '0';
    while(9 >= n >= 0) /* told */
        n = n - 10;
    printn(n, 10);
}

run14() {
    auto c;
    c = getchar();
    while(!c == '*e') { /* told */
        putchar(c);
        c = getchar();
    }
}

run15() {
    auto n;
    n = 7;
    putchar('a' + printn(n)); /* told */
}
