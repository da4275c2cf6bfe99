/* Calls for what they do. */
first(n) {
    next(n);
    n > 3 ? putchar('a') : putchar('b');
    n = next(n) + 1;
    return(next(n) * 2);
}
second(v, n) {
    v[next(n)] = 1;
    v[next(n)]++;
    next(next(n) + 1);
    (next(n));
    *next(v) = 3;
}
third(n) {
    next(n)[0] =+ 1;
    if(next(n) == 3)
        next(n + next(1));
    while(next(n) > n + 1)
        ;
}
next(n) return(n + 1);
main() {
    auto v 9;
    v[0] = v[1] = v[2] = 0;
    first(1); second(v, 2); third(v);
}
