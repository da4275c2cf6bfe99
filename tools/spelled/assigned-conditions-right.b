/* Assignments that are compared, or that stand for themselves. */
first(s) {
    auto c, i;
    i = 0;
    while((c = char(s, i)) != '*e') {
        if((c = upper(c)) == 'A')
            return(i);
        i++;
    }
    return(-1);
}
second(a, b) {
    auto equal;
    equal = (a == b);
    a = b = 3;
    if(equal)
        a = 4;
    return(a == b);
}
third(v, i) {
    if(v[i = 2] == 5)
        return(i);
    while(i <= 3)
        v[i++] = i == 2 ? 1 : 0;
    return(v[i == 4]);
}
upper(c) {
    if(c >= 'a' & c <= 'z')
        return(c - 'a' + 'A');
    return(c);
}
main() {
    auto v 4;
    v[0] = v[1] = v[2] = v[3] = v[4] = 5;
    printn(first("bad") + second(1, 2) + third(v, 0), 10);
}
