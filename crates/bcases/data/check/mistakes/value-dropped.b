/* A statement that calls and drops what its operator gives. */
main() {
    auto i, v 3;
    i = 3;
    fib(i - 1) + fib(i - 2);
    if(i) fib(i) * 2;
    while(i)
        i-- - 1;
    { v[fib(1)] / fib(2); }
next: 1 << fib(i);
    fib(i) %
        10;
    i = fib(1) + fib(2);
    fib(i + 1);
    i ? fib(1) : fib(2);
    v[0] = i;
}
fib(n) return(n < 2 ? n : fib(n - 1) + fib(n - 2));
