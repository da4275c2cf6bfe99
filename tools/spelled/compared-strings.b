/* A string compared. */
first(s) {
    if(s == "stop") /* told */
        return(1);
    while("go" != s) /* told */
        s++;
    return(0);
}
second(v, i) {
    if(v[i] == "end") /* told */
        return(i);
    return(v[i + 1] == "" ? 1 : 2); /* told */
}
third(c) {
    if(c == "a" | c == "b") /* told */
        return(1);
    if(getchar() != "x") /* told */
        return(2);
    while((c = getchar()) != "*n") /* told */
        putchar(c);
}
fourth(s) {
    if(*s == ("yes")) putchar('y'); /* told */
    if(char(s, 0) == "y") putchar('j'); /* told */
    if(f(s) > /* told */
       "m")
        putchar('m');
}
f(s) return(s);
main() {
    auto v 3;
    v[0] = v[1] = v[2] = v[3] = 0;
    first("stop"); second(v, 1); third('a'); fourth("yes");
}
