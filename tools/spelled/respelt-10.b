/* Mistakes in other spellings: negated conditions, goto, pointers, operands of & and |. */

isx1(c) {
    return(c = 'x'); /* told */
}
main() { printn(isx1('x'), 10); }

run2() {
    auto s;
    s = 24 * 60 * 60; /* told */
    printn(s, 10);
}

run3() {
    auto s;
    s = 300 * 200; /* told */
    printn(s, 10);
}

run4() {
    auto c; c = getchar();
    switch(c) {
    case 'a': putchar('1');
    case 'b': putchar('2'); /* told */
    case 'c': putchar('3'); /* told */
    }
}

run5() {
    auto c, n; c = getchar(); n = 4;
    switch c {
    case '+':
        printn(n + 1, 10); putchar('*n');
    case '-': /* told */
        putchar('-'); printn(n - 1, 10);
    case 'x': printn(n * 2, 10);
    }
}
