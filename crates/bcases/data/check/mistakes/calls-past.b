fib(n) {
    if(n == 0)
        return(0);
    return(fib(n - 1) + fib(n - 2));
}
right(n) {
    if(n == 0)
        return(0);
    if(n == 1)
        return(1);
    return(right(n - 1) + right(n - 2));
}
below(n) {
    if(n < 2)
        return(n);
    return(below(n - 1) + below(n - 2));
}
evens(n) {
    if(n == 0)
        return(0);
    return(n + evens(n - 2));
}
main() {
    printn(fib(3) + right(3) + below(3) + evens(4), 10);
}
