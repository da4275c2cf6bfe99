/* The same, step by step: b show asks.b > asks.html */
main() {
    f(4);
    up(2);
}

f(n) {
    if(n < 2)
        return(1);  /* ask */
    return(f(n - 1) + f(n - 2));  /* ask */
}

up(n) {
    if(n == 0)
        return;
    printn(n, 10);  /* ask */
    up(n - 1);
    printn(n, 10);  /* ask */
}
