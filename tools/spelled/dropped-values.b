/* A call whose value an operator uses, and which is dropped. */
fib(n) {
    if(n < 2)
        return(n);
    fib(n - 1) + fib(n - 2); /* told */
}
first(v, n) {
    next(n) * 2; /* told */
    v[next(n)]; /* told */
    if(n > 3) next(n) - 1; /* told */
    else !next(n); /* told */
}
second(n) {
again: next(n) == 3; /* told */
    while(n-- > 0)
        -next(n); /* told */
    if(n > 3) goto again;
    n /* told */
      + next(n);
    *next(n); /* told */
}
fact(n) {
    if(n == 0) return(1);
    n * fact(n - 1); /* told */
}
next(n) return(n + 1);
main() {
    auto v 9;
    v[0] = 0;
    printn(fib(5), 10); first(v, 1); second(2); printn(fact(3), 10);
}
