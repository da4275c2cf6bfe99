/* Mistakes in other spellings: negated conditions, goto, pointers, operands of & and |. */

fact1(n) {
    if(!n) return(0); /* told */
    return(fact1(n - 1) * n);
}
main() { printn(fact1(5), 10); }

read2(p) { *p = getchar() - '0'; }
run2() {
    auto n;
    n = 0;
    read2(n); /* told */
    printn(n, 10);
}

inc3(n) { /* told */
    n = n + 1;
}
run3() { auto k; k = 4; inc3(k); printn(k, 10); }

inc4(p) { *p++; } /* told */
run4() { auto k; k = 4; inc4(&k); printn(k, 10); }

run5() {
    auto char, i; /* told */
    i = 0;
    while((char = getchar()) != '*e') i++;
    printn(i, 10);
}

run6() {
    auto total, count, cuont; /* told */
    total = count = 0;
    count++;
    printn(total + count, 10);
}

run7() {
    auto y; y = 0;
    while(y < 60000) y = y + 1000; /* told */
    printn(y, 10);
}

run8() {
    auto c; c = 30;
    printn(c * (9 / 5) + 32, 10); /* told */
}

search9(v, n, x) {
    auto low, high, mid;
    low = 0; high = n;
    while(!(low >= high)) {
        mid = low + (high - low) / 2;
        if(v[mid] < x) low = mid; /* told */
        else high = mid;
    }
    return(low);
}
run9() { auto v 3; v[0] = 1; v[1] = 2; v[2] = 3; v[3] = 4; printn(search9(v, 4, 3), 10); }

run10() {
    auto i, s;
    i = 1; s = 0;
    while(!(i > 10)) {
        i++; /* told */
        s = s + i;
    }
    printn(s, 10);
}

run11() {
    auto i;
    i = 0;
    while(!(i == 9)) { /* told */
        printn(i, 10);
        i = i + 2;
    }
}

run12() {
    auto i, v 4;
    i = 0;
    while(i != 5) v[i++] = 7;
    while(i != 5) printn(v[i++], 10); /* told */
}

run13() {
    auto n; n = 0;
    while(!(getchar() == '*e')) /* told */
        if(getchar() == 'a') n++;
    printn(n, 10);
}

run14() {
    auto c, n; n = 0;
    c = 0;
    while(!(c == '*e')) {
        c = getchar(); n++; /* told */
    }
    printn(n, 10);
}

run15() {
    auto v 3, i, small;
    i = 0; small = 0; /* told */
    v[0] = 4; v[1] = 2; v[2] = 9; v[3] = 7;
    while(i < 4) { if(!(v[i] >= small)) small = v[i]; i++; }
    printn(small, 10);
}

run16() {
    auto v 3, i, max;
    v[0] = 4; v[1] = 2; v[2] = 9; v[3] = 7;
    i = 1; max = v[0];
    while(i != 4) { if(max > v[i]) max = v[i]; i++; } /* told */
    printn(max, 10);
}
