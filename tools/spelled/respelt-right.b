/* Right programs that look like mistakes in other spellings. */

getc1() {
    extrn back1;
    auto c;
    if(c = back1) {
        back1 = 0;
        return(c);
    }
    return(getchar());
}
back1 0;
main() {
    auto c;
    extrn back1;
    while((c = getc1()) != '*e') {
        if(c == '-') back1 = '+';
        putchar(c);
    }
}

run2() {
    auto v 7, p, end, n;
    n = 0;
    p = v;
    end = &v[8];
    while(p != end) *p++ = n++;
    p = v;
    while(p < end) { printn(*p, 10); putchar(' '); p++; }
}

run3() {
    auto v 9, i;
    i = 0;
    while(i != 10) v[i++] = 0;
    i = 9;
    while(!(i < 0)) { v[i] = i; i--; }
    printn(v[3], 10);
}

run4() {
    auto c;
    c = getchar();
    while(!(c == '*n' | c == '*e')) {
        if(!(c < '0') & !(c > '9')) putchar(c);
        c = getchar();
    }
}

run5() {
    auto v 4, i;
    i = 5;
    while(i) {
        --i;
        v[i] = i * i;
    }
    while(i < 5) printn(v[i++], 10);
}

run6() {
    auto v 9, k;
    k = 0;
fill:
    v[k] = k * k;
    k++;
    if(k < 10) goto fill;
    k = 9;
show:
    printn(v[k], 10); putchar(' ');
    k--;
    if(k >= 0) goto show;
}

fill7(v, n) {
    auto p, i;
    i = 0; p = v;
    while(i < n) *p++ = i++;
    return(v);
}
run7() {
    auto a 4, b;
    b = fill7(a, 5);
    printn(b[3], 10);
}

line8[20];
read8() {
    extrn line8;
    auto c, n, p;
    n = 0; p = line8;
    while((c = getchar()) != '*n' & c != '*e') lchar(line8, n++, c);
    lchar(p, n, '*e');
    return(p);
}
run8() { auto s, i, c; s = read8(); i = 0; while((c = char(s, i++)) != '*e') putchar(c); }

run9() {
    auto c, n;
    n = 0;
    while((c = getchar()) != '*e') if(c == '*n') n = 0; else { n++; if(n == 80) putchar('*n'); putchar(c); }
}

run10() {
    auto f;
    f = 6;
    if((f & 4) != 0 & (f & 1) == 0) putchar('y');
    if(!(f & 1)) putchar('n');
    if(f & 2) putchar('2');
}

run11() {
    auto c, sum;
    sum = 0;
    while((c = getchar()) != '*e') sum = (sum + c) % 256;
    printn(sum, 10);
}

seed12 1;
next12() { extrn seed12; return(seed12 = seed12 * 5 + 1); }
set12() { extrn seed12; return(seed12 = 7); }
run12() { set12(); printn(next12(), 10); }

run13() { auto s; s = 60 * 60 * 8; printn(s, 10); s = 'A' * 256 + 'B'; printn(s, 10); printn(181 * 181, 10); }

run14() {
    auto c; c = getchar();
    switch(c) {
    case 'a': case 'e': case 'i':
        putchar('v'); return;
    case 'b':
        putchar('c'); return;
    }
    putchar('?');
}

run15() {
    auto n; n = getchar() - '0';
    switch(n) {
    case 3: putchar('I');
    case 2: putchar('I');
    case 1: putchar('I');
    }
}

run16() {
    auto c, n; c = getchar(); n = 4;
    switch c {
    case '-': putchar('-'); n = 5;
    case '+': printn(n, 10);
    }
}

sign17(n) {
    if(n > 0) return(1);
    else if(n < 0) return(-1);
}
run17() { printn(sign17(-4), 10); }

has18(s, c) {
    auto i, d;
    i = 0;
    while((d = char(s, i)) != '*e') { if(d == c) return(1); i++; }
    return(0);
}
run18() { printn(has18("abc", 'b'), 10); }

run19() {
    auto r, c;
    r = 3;
    while(r) {
        c = r;
        while(!(c == 0)) { putchar('**'); c--; }
        putchar('*n');
        r--;
    }
}

run20() {
    auto n;
    n = -5;
    while(n != 0) { printn(n, 10); n++; }
}

best21(v, n) {
    auto i, m;
    i = 1; m = 0;
    while(i < n) { if(!(v[i] <= v[m])) m = i; i++; }
    return(m);
}
run21() { auto v 2; v[0] = 3; v[1] = 7; v[2] = 1; printn(best21(v, 3), 10); }

run22() {
    auto c, n;
    n = 0;
    while((c = getchar()) >= '0' & c <= '9') n = 10 * n + c - '0';
    printn(n, 10);
}

run23() {
    auto c;
    c = ' ';
    while(!(c == '*n') & c != '*e') { c = getchar(); putchar(c); }
}

sum24(p, n) {
    auto s; s = 0;
    while(n-- > 0) s =+ *p++;
    return(s);
}
run24() { auto v 2; v[0] = 1; *(v + 1) = 2; *(v + 2) = 3; printn(sum24(v, 3), 10); }

show25(n) { printn(n, 10); putchar('*n'); }
run25() { auto i; i = 0; while(i < 3) show25(i++); }

run26() {
    auto c;
    while(getchar() == ' ');
    c = getchar();
    putchar(c);
    while((c = getchar()) != '*e' & c != '*n');
    putchar('x');
}

run27() {
    auto c;
    c = getchar();
    if(c >= '0') { if(c <= '9') putchar('d'); else if(c > 'z') putchar('?'); }
    if(c > 'a') if(c < 'z') putchar('m');
}

abs28(n) return(n < 0 ? -n : n);
run28() { auto v 3, i; i = 2; v[i + 1] = abs28(-4); v[i] = v[i + 1]; v[--i] = 3; printn(v[i] * v[3], 10); }

words29(v) { auto n; n = 0; while(v[n]) n++; return(n); }
run29() { auto v 3; v[0] = v[1] = 4; v[2] = 0; printn(words29(v), 10); }

run30() {
    auto v 7, p, end, n;
    n = 0;
    p = v;
    end = &v[8];
    while(p != end) { *p++ = n++; }
    printn(v[3], 10);
}

run31() {
    auto a, b;
    a = getchar(); b = getchar();
    if((a == b) == 0) putchar('d');
}

run32() {
    auto c, back;
    back = 0;
    while((c = getchar()) != '*e') {
        if(c == 'x') back = c;
        if(c = back) { putchar(c); back = 0; }
    }
}

run33() { auto a, b; a = getchar(); b = 3; if((a == 'x') == 0) putchar('n'); if(0 == (b == 3)) putchar('m'); }

f34(s, i) { while((char(s, i) == '*e') == 0) i++; if((char(s, 1) == 'a') == 0) i = 3; return(i); }
run34() { printn(f34("a", 0), 10); }

f35(a, b) { auto x; x = (a == b) == 0; if((a < b) == 0) x = 2; if((a == b) != 0) x = 3; if(!(a == b) == 0) x = 5; return(x); }
run35() { printn(f35("a", 0), 10); }

run36() { auto c; while(((c = getchar()) == '*e') == 0) putchar(c); }

run37() { auto c; while(((c = getchar()) != '*e') != 0) putchar(c); }
