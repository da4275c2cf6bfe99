/* I = i++ and its kin. */
first(n) {
    auto i;
    i = 0;
    while(i < n)
        i = i++; /* told */
    return(i);
}
second(v) {
    v[0] = v[0]++; /* told */
    v[1] = (v[1]--); /* told */
    *v = *v++; /* missed */
}
third(n) {
    if(n > 3) n = n--; /* told */
    else n = 3;
again: n /* told */
        = n++;
    if(n < 9) goto again;
    return(n = n++); /* told */
}
fourth(n) {
    if(n == 0)
        return(1);
    return(n * fourth(n--)); /* told */
}
fifth(a, n) {
    if(n > 0)
        fifth(a, n--); /* told */
    putchar(a);
}
n 3;
sixth() {
    extrn n;
    n = n++; /* told */
    putchar('a' + n);
}
main() {
    auto v 2;
    v[0] = v[1] = v[2] = 0;
    first(2); second(v); third(2); fourth(2); fifth('a', 2); sixth();
}
