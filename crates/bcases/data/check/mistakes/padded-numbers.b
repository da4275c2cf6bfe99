times[4] 05, 020, 035, 050;
price(n) {
    switch n {
    case 010:
        return(3);
    case 020:
        return(5);
    case 030:
        return(7);
    }
    return(0);
}
main() {
    extrn times;
    printn(price(times[1]), 10);
}
