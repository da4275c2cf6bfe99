main() {
    printn(fact(3), 10);
    putchar('*n');
}

fact(n) {
    if(n == 0)
        return(1);
    return(n * fact(n - 1));
}
