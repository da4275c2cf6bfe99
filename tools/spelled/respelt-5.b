/* Mistakes in other spellings: negated conditions, goto, pointers, operands of & and |. */

main() {
    auto c, n;
    n = 0;
    while((c = getchar()) != '*e')
        if(!(c < 0) & c <= 9) /* told */
            n++;
    printn(n, 10);
}

run2() {
    auto n;
    n = 1;
    while(n <= 9) {
        putchar(n++); /* told */
        putchar(' ');
    }
}

run3() {
    auto c, sum;
    sum = 0;
    while((c = getchar()) != '*e') if('0' <= c & '9' >= c) sum = sum + (c); /* told */
    printn(sum, 10);
}

max4(a, b) {
    if(!(a < b)) /* told */
        return(a);
}
run4() { printn(max4(3, 2), 10); }

find5(v, n, x) {
    auto i;
    i = 0;
    while(n > i) {
        if(v[i] == x) { return(i); } else { return(-1); }
        i++; /* told */
    }
}
run5() { auto v 3; v[0] = v[1] = v[2] = v[3] = 4; printn(find5(v, 4, 4), 10); }

swap6(p, q) {
    auto x, y;
    x = *p; y = *q;
    *p = *q;
    *q = *p; /* told */
    return(x + y);
}
run6() { auto a, b; a = 1; b = 2; swap6(&a, &b); printn(a, 10); }

grade7(n) {
    if(!(n < 50)) return('p');
    else
    if(n >= 90) return('a'); /* told */
    return('f');
}
run7() { putchar(grade7(95)); }

run8() {
    auto i, odd;
    i = odd = 0;
    while(i != 10) {
        if(i % 2 == 0) /* told */
            i++;
        odd =+ i;
    }
    printn(odd, 10);
}

best9(v, n) {
    auto i, m;
    i = m = 0;
    while(i < n) {
        if(!(v[i] <= m))
            m = i; /* told */
        i++;
    }
    return(m);
}
run9() { auto v 2; v[0] = 3; v[1] = 7; v[2] = 1; printn(best9(v, 3), 10); }

gcd10(a, b) {
    if(b == 0) return(a);
    else { gcd10(b, a % b); } /* told */
    return(b);
}
run10() { printn(gcd10(12, 18), 10); }

run11() {
    auto a 3, b 3;
    a[0] = 1; a[1] = 2; b[0] = 0;
    b = (a); /* told */
    printn(b[1] + a[0], 10);
}

run12() {
    auto p, k;
    k = 1; p = 0; /* told */
again:
    p = p * k;
    if(++k <= 5) goto again;
    printn(p, 10);
}

run13() {
    auto sum, n;
    sum = 30;
    n = 0;
    printn(sum / n, 10); /* told */
}

digits14(n) {
    auto k; k = 0;
    while(!(n == 0)) {
        n = n % 10; /* told */
        k++;
    }
    return(k);
}
run14() { printn(digits14(123), 10); }

square15(n) return(n * n);
run15() {
    auto square15; square15 = 4;
    printn(square15(square15), 10); /* told */
}
