/* Mistakes in other spellings: negated conditions, goto, pointers, operands of & and |. */

isodd1(n) {
    n = n & 1;
}
main() {
    if(3 + isodd1(4) == 4) /* told */
        putchar('o');
}

sum2(n) {
    return(sum2(n - 1) + n); /* told */
}
run2() {
    printn(sum2(10), 10);
}

fact3(n) {
    auto r;
    r = n * fact3(n - 1); /* told */
    return(n < 2 ? 1 : r);
}
run3() {
    printn(fact3(5), 10);
}

run4() {
    auto c;
    c = getchar();
    if('y' == c | 'Y') /* told */
        putchar('1');
}

run5() {
    auto c;
    while((c = getchar()) != ' ' & '*n' & '*e') /* told */
        putchar(c);
}

run6() {
    auto i;
    i = 0;
    while(i < 5) {
        i = (i++); /* told */
        putchar('x');
    }
}

down7(n) {
    if(n == 0) return(0);
    printn(n, 10);
    return(1 + down7(n--)); /* told */
}
run7() { down7(3); }

percent8(part, all) {
    auto p;
    if(all == 0) return(0);
    p = 100 * (part / all); /* told */
    return(p);
}
run8() { printn(percent8(3, 4), 10); }

celsius9(f) {
    return(5 / 9 * (f - 32)); /* told */
}
run9() { printn(celsius9(212), 10); }

run10() {
    auto c;
    c = getchar();
    while(!(c == 'y') | !(c == 'n')) /* told */
        c = getchar();
}

run11() {
    auto d;
    d = getchar();
    if('0' > d & d > '9') /* told */
        putchar('?');
}

run12() {
    auto d;
    d = getchar();
    if(d < '0') { if(d > '9') /* told */
        putchar('?');
    }
}

run13() {
    auto n;
    n = 10;
    while(!(n == 0)) {
        n++; /* told */
        printn(n, 10);
    }
}

run14() {
    auto n;
    n = 10;
next: printn(n, 10);
    n++; /* told */
    if(n > 0) goto next;
}

run15() {
    auto row, col;
    row = col = 0;
    while(row < 3) {
        while(!(col >= 3)) { /* told */
            putchar('*'');
            col++;
        }
        putchar('*n');
        row++;
    }
}

run16() {
    auto k, sum;
    k = 0;
    while(k != 10) {
        sum = 0; /* told */
        k++;
        sum =+ k;
    }
    printn(sum, 10);
}

run17() {
    auto c;
    c = ' ';
    while(!(c == '*n')) { /* told */
        c = getchar();
        putchar(c);
    }
}

sq18(n) {
    if(n < 0) {
        return(-n);
        n = 0 - n; /* told */
    }
    return(n * n);
}
run18() { printn(sq18(3), 10); }
