/* A label before no statement that one would want. */
first(n) {
    if(n > 3)
        goto A;
A: 5; /* told */
    return(n);
}
second(n) {
    goto B1;
A1: B1: n; /* told */
    if(n--) goto A1;
}
third(n) {
    if(n) L: 7; /* told */
    while(n-- > 3) M: n + 1; /* told */
    if(n > 100) goto L;
    if(n > 90) goto M;
}
fourth(c) {
    switch c {
        case 'a': def: 'b'; /* told */
        other: -1; /* told */
    }
    if(c) return(1);
    goto c ? def : other;
}
fifth(v) {
    red: 1; /* told */
    blue:
        2; /* told */
    v[0] = red;
    if(v[1] == blue) { in: v[2]; } else goto in; /* told */
}
main() {
    auto v 3;
    v[0] = v[1] = v[2] = 0;
    first(1); second(1); third(1); fourth('a'); fifth(v);
}
