/* Mistakes in other spellings: negated conditions, goto, pointers, operands of & and |. */

main() {
    auto v 4, i;
    i = 0;
    while(i < 5) {
        v[(i + 1)] = i; /* told */
        i = i + 1;
    }
    printn(v[1], 10);
}

run2() {
    auto line 9, k;
    k = 0;
    while(20 > k)
    {
        *(k + line) = ' '; /* told */
        k =+ 1;
    }
    printn(line[0], 10);
}

marks3[4];
run3() {
    extrn marks3; auto k;
    k = 0;
    while(!(k > 5)) {
        marks3[k] = k; /* told */
        ++k;
    }
}

marks4[4];
run4() {
    extrn marks4;
    *(marks4 + 9) = 1; /* told */
}

isend5(c) {
    return((c = '*e')); /* told */
}
run5() { printn(isend5('x'), 10); }

pick6(n) {
    printn((n = 0) ? 1 : 2, 10); /* told */
}
run6() { pick6(3); }

run7() {
    auto c; c = getchar();
    while(c != '*e') {
        if((c = 'a') | (c = 'b')) putchar('v'); /* told */
        c = getchar();
    }
}

run8() {
    auto c, n; n = 0;
    while((c = getchar()) != '*e') {
        if("." == c | c == "!") n++; /* told */
    }
    printn(n, 10);
}

islash9(s) {
    auto c;
    c = char(s, 1);
    if(*s == '/') return(c); /* told */
    return(0);
}
run9() { putchar(islash9("/x")); }

double10(n) {
    auto r;
    r = 2 * n;
    r; /* told */
}
run10() { printn(double10(4), 10); } /* told */

larger11(a, b)
    if(a > b)
        a; /* told */
    else
        b; /* told */
run11() { printn(larger11(3, 4), 10); } /* told */

run12() {
    auto n; n = getchar() - '0';
    if(n > 0)
        putchar('+');
    else if(!(n <= 3)) /* told */
        putchar('#');
    else putchar('-');
}

run13() {
    auto k;
    k = 0;
    while(k <= 10) {
        k = k - 1; /* told */
        printn(k, 10);
    }
}

run14() {
    auto c;
    c = getchar();
    switch(c) {
    case 5: putchar('5'); return; /* told */
    case 6: putchar('6'); return; /* told */
    }
}

run15() {
    auto c, n;
    n = 0;
    while((c = getchar()) != '*n' & c != '*e')
        n = c + n * 10; /* told */
    printn(n, 10);
}

run16() {
    auto c; c = getchar();
    while(c != ' ') /* told */
        { putchar(c); c = getchar(); }
}

odd17(n) {
    return(n & 1 == 1); /* told */
}
run17() { printn(odd17(3), 10); }

run18() {
    auto v 1, t; t = 0;
    v[0] = 1; v[1] = 2;
    v[0] = v[1];
    v[1] = v[0]; /* told */
    printn(v[0] + t, 10);
}
