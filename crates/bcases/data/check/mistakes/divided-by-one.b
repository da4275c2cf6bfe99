prime(n) {
    auto d;
    d = 1;
    while(d < n) {
        if(n % d == 0)
            return(0);
        d++;
    }
    return(1);
}
main() printn(prime(7), 10);
