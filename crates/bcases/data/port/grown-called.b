fib(n) {
    if(n < 2)
        return(n);
    return(fib(n - 1) + fib(n - 2));
}
main() printn(fib(30), 10);
