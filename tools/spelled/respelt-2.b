/* Mistakes in other spellings: negated conditions, goto, pointers, operands of & and |. */

main() {
    auto low, high, x;
    low = 2;
    high = 9;
    x = getchar() - '0';
    while(x >= low&&x <= high) /* told */
        x--;
    printn(x, 10);
}

cube2(side)
{
    auto volume;
    volume = side**3; /* told */
    return(volume);
}
run2() {
    printn(cube2(4), 10);
    putchar('*n');
}

turn3(dir) {
    if(dir == 0)
        return(1);
    else
    {
        auto back;
        back =-1; /* told */
        return(back);
    }
}
run3() { printn(turn3(3), 10); }

run4() {
    auto answer, tries;
    tries = 0;
    answer = getchar();
again:
    if(tries < 3 & (answer = 'n')) { /* told */
        tries++;
        goto again;
    }
    printn(tries, 10);
}

run5() {
    auto done, n;
    n = done = 0;
    while(!(done = 1)) { /* told */
        n++;
        if(n > 5) done = 1;
    }
    printn(n, 10);
}

larger6(a, b) {
    auto r;
    r = (a = 0) ? b : a; /* told */
    return(r);
}
run6() {
    printn(larger6(3, 4), 10);
}

run7() {
    auto c, n;
    n = 0;
    while((c = getchar() != '*n') & n < 10) { /* told */
        putchar(c);
        n++;
    }
}

run8() {
    auto c, n;
    n = 0;
next: if(c = getchar() != '*e') { /* told */
        if(c == 'a') n++;
        goto next;
    }
    printn(n, 10);
}

run9() {
    auto i;
    i = 1;
    while((i =< 10)) { /* told */
        printn(i, 10);
        i++;
    }
}

run10() {
    auto c;
    c = getchar();
    if('a' == c) ; /* told */
    {
        putchar('A');
    }
}

run11() {
    auto k;
    k = 10;
    while(!(k == 0)); /* told */
        k--;
    printn(k, 10);
}

run12() {
    auto days 6, sum;
    days[0] = 31;
    days[1] = 28;
    sum = days[0] + days[1];
    *(days + 7) = sum; /* told */
    printn(*days, 10);
}

run13() {
    auto table 9, k;
    k = 0;
fill:
    table[k] = k * k; /* told */
    k++;
    if(k <= 10) goto fill;
    printn(table[3], 10);
}

run14() {
    auto t 4, k;
    k = 5;
    while(k) {
        t[k] = k; /* told */
        --k;
    }
    t[0] = 1;
    printn(t[2], 10);
}

run15() {
    auto total 10, i; /* told */
    i = total = 0;
    while(i < 5) {
        total = total + i;
        i++;
    }
    printn(total, 10);
}

run16() {
    auto name 20, p;
    name[0] = 0;
    p = (&name); /* told */
    lchar(p, 0, 'x');
    putchar(char(name, 0));
}
