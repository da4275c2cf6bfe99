/* The end, a line's end, and a string's. */
first() {
    auto c, n;
    n = 0;
    while((c = getchar()) != 4)
        if(c == '*n')
            n++;
    return(n);
}
second(v) {
    auto i, c;
    i = 0;
    while((c = getchar()) != '*n' & c != '*e')
        v[i++] = c;
    v[i] = 0;
    while(v[i] != 0)
        i++;
    return(i);
}
third() {
    auto c;
    c = getchar();
    while(c == ' ' | c == '*t')
        c = getchar();
    if((c = getchar()) > '0')
        return(c - '0');
    return(0);
}
main() {
    auto v 80;
    first(); second(v); third();
}
