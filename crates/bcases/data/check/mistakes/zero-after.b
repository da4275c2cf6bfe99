same(n) {
    auto back;
    back = 0;
    while(n > 0) {
        back = back * 10 + n % 10;
        n =/ 10;
    }
    return(back == n);
}
right(n) {
    auto back, old;
    old = n;
    back = 0;
    while(n) {
        back = back * 10 + n % 10;
        n = n / 10;
    }
    if(n == 0)
        return(back == old);
    return(0);
}
main() {
    printn(same(121) + right(121), 10);
}
