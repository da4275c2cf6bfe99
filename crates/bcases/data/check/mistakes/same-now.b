gcd(a, b) {
    auto rest;
    while(b != 0) {
        a = b;
        rest = a % b;
        b = rest;
    }
    return(a);
}
main() {
    auto a, b, i;
    a = i = 0;
    b = 1;
    while(i < gcd(12, 8)) {
        printn(a, 10);
        a = b;
        b = a + b;
        i++;
    }
}
