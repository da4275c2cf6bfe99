/* An assignment as a condition. */
first(v, n) {
    auto i;
    i = 0;
    while(i < n) {
        if(v[i] = 7) /* told */
            return(i);
        i++;
    }
    return(-1);
}
second(a, b) {
    if(a > 0 & (b = 3)) /* told */
        return(a);
    if(!(a = b)) /* told */
        return(b);
    return(0);
}
third(p) {
again: if(*p = 0) return(p); /* told */
    p++;
    goto again;
}
fourth(c) {
    while(c = /* missed */
        next(c))
        putchar(c);
    return(c = 'x' ? 1 : 2); /* told */
}
fifth(x, y) {
    if(x) if(y = x + 1) putchar('y'); /* missed */
    else putchar('n');
}
next(c) return(c - 1);
main() {
    auto v 3;
    v[0] = v[1] = v[2] = v[3] = 7;
    first(v, 4); second(1, 2); third(v); fourth(3); fifth(1, 2);
}
