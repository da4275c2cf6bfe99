/* Mistakes in other spellings: negated conditions, goto, pointers, operands of & and |. */

main() {
    auto a, b, t, k;
    a = 0; b = 1; k = 0;
    while(k != 10) {
        t = a + b; b = t;
        a = b; /* told */
        k++;
    }
    printn(a, 10);
}

swap2(p, q) {
    auto t; t = 0;
    *p = *q;
    *q = *p; /* told */
    return(t);
}
run2() { auto a, b; a = 1; b = 2; swap2(&a, &b); printn(a, 10); }

run3() {
    auto r, c, s;
    r = s = 0;
    while(r < 3) {
        c = 0;
        while(!(c == 3)) {
            s = s + r * c; /* told */
            c++;
        }
        printn(s, 10); putchar('*n');
        r++;
    }
}

run4() {
    auto s; s = "abc";
    *s = 'x'; /* told */
    putchar(char(s, 0));
}

run5() {
    auto n; n = getchar() - '0';
    if(!(n == 0) & 10 / n > 2) putchar('y'); /* told */
}

run6() {
    auto i, n;
    i = n = 0;
    while(!(i == 10)) { /* told */
        n = n + i;
        printn(n, 10);
    }
}

run7() {
    auto i, n;
    i = n = 0;
again: n = n + 3;
    printn(n, 10);
    if(i < 10) goto again; /* told */
}

run8() {
    auto n;
    n = 1;
    while(1 == 1) { /* told */
        putchar('x');
        n++;
    }
}

run9() {
    auto n, m; m = 3;
    n = 0; /* told */
    n = (m * 2);
    printn(n, 10);
}

run10() {
    auto v 25, c; c = 0;
    while(c < 26) v[c++] = 0;
    c = getchar();
    if(!(c < 'a')) v[c]++; /* told */
    printn(v[0], 10);
}

rot11(c, k) {
    auto d;
    d = (c - 'a' - k) % 26; /* told */
    return(d + 'a');
}
run11() { putchar(rot11('c', 5)); }

run12() {
    putchar('x');
    putchar(('/n')); /* told */
}

run13() {
    auto state, n; n = 0;
    state = 1;
    while(state = 1) { n++; if(n == 5) state = 0; } /* told */
    printn(n, 10);
}
