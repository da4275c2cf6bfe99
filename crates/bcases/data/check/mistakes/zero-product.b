power(x, n) {
    auto p, i;
    p = 0;
    i = 0;
    while(i < n) {
        p = p * x;
        i++;
    }
    return(p);
}
main() printn(power(2, 5), 10);
