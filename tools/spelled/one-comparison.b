/* A comparison, | and a constant. */
first(c) {
    if(c == 'a' | 'e' | 'i') /* told */
        return(1);
    return(c == 'x' | 'y'); /* told */
}
second(v, i) {
    while(v[i] == 1 | 2) /* told */
        i++;
    return(i);
}
third(c) {
    if(c) if(getchar() == 'q' | 'Q') exit(0); /* told */
    f(c != '*n' & '*e'); /* told */
    c = c == 'a' /* told */
        | 'b';
    return(c);
}
fourth(s) {
    if('y' | 'j' == char(s, 0)) /* told */
        return(1);
top: if(f(s) == 3 | 4 | 5) goto top; /* told */
}
f(c) return(c);
main() {
    auto v 2;
    v[0] = v[1] = v[2] = 0;
    first('a'); second(v, 0); third('a'); fourth("yes");
}
