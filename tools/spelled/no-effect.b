/* A statement without effect. */
first(a, b) {
    a == b; /* told */
    return(a);
}
second(v, i) {
    v[i]; /* told */
    if(i > 2)
        -i; /* told */
    return(v[i + 1]);
}
third(n) {
    while(n--)
        n * 2; /* told */
    case1: n - 1; /* told */
    if(n) goto case1;
}
fourth(c) {
    switch c {
        case 'a':
            'b'; /* told */
        case 'c':
            "text"; /* told */
    }
    return(c);
}
fifth(p) {
    *p; /* told */
    &p; /* told */
    (p); /* told */
    p + 1
        < 7; /* told */
    return(*p);
}
sixth(x) {
    if(x > 3) /* told */
        x + 1;
    else
        !x; /* told */
    return(x);
}
main() {
    auto v 4;
    v[0] = v[1] = v[2] = v[3] = v[4] = 0;
    first(1, 2); second(v, 2); third(2); fourth('a'); fifth(v); sixth(1);
}
