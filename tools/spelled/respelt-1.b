/* Mistakes in other spellings: negated conditions, goto, pointers, operands of & and |. */

main() {
    auto v 8, i;
    i = 0;
    while(!(i > 10))
    {
        v[i] = 1; /* told */
        i++;
    }
    printn(v[0], 10);
}

run2() {
    auto v 8, i;
    i = 0;
    while(i != 20)
    {
        v[i] = 1; /* told */
        i++;
    }
    printn(v[0], 10);
}

run3() {
    auto v 8, i;
    i = 0;
    while(i < 10)
        v[i++] = 0; /* told */
    printn(v[0], 10);
}

run4() {
    auto v 8, i;
    i = 0;
    while(i != 10)
        v[i++] = 0; /* told */
    printn(v[0], 10);
}

run5() {
    auto x, y;
    x = getchar(); y = 3;
    if((x = 'a') & y == 3) /* told */
        putchar('y');
}

run6() {
    auto v 4;
    *(v + 5) = 3; /* told */
    printn(*(v + 1), 10);
}

run7() {
    auto v 8, i;
    i = 0;
    while(i < 10) {
        *(v + i) = 0; /* told */
        i++;
    }
    printn(v[0], 10);
}

run8() {
    auto s;
    s = "abc";
    if(*s == 'a') /* told */
        putchar('y');
}

run9() {
    auto s;
    s = "abc";
    if(*(s + 1) == 'b') /* told */
        putchar('y');
}

first10(s) {
    auto n;
    n = 0;
    if(*s == 'a') /* told */
        n = 1;
    return(n + char(s, 1));
}
run10() {
    printn(first10("abc"), 10);
}

f11(n)
{
    return(n * 2 + f11(n - 1)); /* told */
}
run11() {
    printn(f11(3), 10);
}

run12() {
    auto n; n = 700;
    if(0 != n & 1) /* told */
        putchar('o');
}

run13() {
    auto n; n = 700;
    if(1 == n & 1) /* told */
        putchar('o');
}

sign14(n) {
    if(n > 0)
        return(n + 1);
    else if(n < 0) /* told */
        return(n - 1);
}
run14() {
    printn(sign14(3), 10);
}

run15() {
    auto c;
    c = getchar();
    if("," == c) /* told */
        putchar('.');
}

run16() {
    auto c;
    while((c = getchar()) != '*e') {
        if("," == c) putchar('.'); /* told */
        else putchar(c);
    }
}
