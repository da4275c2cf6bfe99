main() {
    printn(fib(9), 10);
}
fib(n) {
    auto a, b;
    if(n < 2) return(n);
    a = fib(n - 1);
    b = fib(n - 2);
    return(a + b);
}
