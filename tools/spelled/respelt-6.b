/* Mistakes in other spellings: negated conditions, goto, pointers, operands of & and |. */

scores1 10;
main() {
    extrn scores1; auto k;
    k = 0; *(scores1 + k) = 5; /* told */
    while(k < 3) { printn(scores1[k], 10); k++; } /* told */
}

run2() {
    auto a 2, b 2;
    a[0] = b[0] = 1; a[1] = b[1] = 2;
    if(!(a == b)) putchar('n'); /* told */
}

run3() {
    auto name, s; name = "bob";
    s = "hi " + name; /* told */
    show3(s);
}
show3(s) { auto i, c; i = 0; while((c = char(s, i++)) != '*e') putchar(c); }

run4() {
    auto n;
    n = getchar();
    show4("n: " + (n - '0')); /* told */
}
show4(s) { auto i, c; i = 0; while((c = char(s, i++)) != '*e') putchar(c); }

run5() {
    auto s; s = "bye";
    putchar((s)); /* told */
}

run6() {
    auto n; n = 45;
    putchar(n / 10);
    putchar((n % 10)); /* told */
}

run7() {
    auto k; k = 0;
    while(k != 5) { putchar(k); ++k; } /* told */
}

run8() {
    auto s; s = "12";
    printn((s), 10); /* told */
}

run9() {
    printn(255, (16)); /* told */
}

add10(a, b) return(a + b);
run10() {
    printn(1 + add10(1, 2, 3), 10); /* told */
}

add11(a, b) return(a + b);
run11() {
    printn(add11(add11(1), 3), 10); /* told */
}

n12 0;
walk12(k) {
    extrn i12;
    i12 = 0;
    while(!(i12 >= k)) {
        walk12(k - 1); /* told */
        i12++;
    }
}
i12 0;
run12() { walk12(3); }

power13(b, e) {
    if(e == 0) return(1);
    return(b * power13(b, e)); /* told */
}
run13() { printn(power13(2, 5), 10); }

fib14(n) {
    if(n == 1) return(1);
    return(fib14(n - 2) + fib14(n - 1)); /* told */
}
run14() { printn(fib14(6), 10); }
