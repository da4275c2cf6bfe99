sum(n) {
    if(n == 0)
        return(0);
    return(n + sum(n + 1));
}
gcd(a, b) {
    if(b == 0)
        return(a);
    return(gcd(a % b, b));
}
main() {
    auto i, found, f;
    i = 0;
    while(i != 10) {
        printn(i, 10);
        i =+ 3;
    }
    i = 0;
    while(i < 3) {
        putchar('a');
        i++;
    }
    while(i < 3) {
        putchar('b');
        i++;
    }
    i = 0;
    while(i < 12) {
        if(i == gcd(12, 8))
            found = 1;
        else
            found = 0;
        i++;
    }
    i = 0;
    while(i < 12) {
        printn(12 % i, 10);
        i++;
    }
    f = 1;
    i = 1;
    while(i <= 5) {
        i++;
        f =* i;
    }
    printn(found + f + sum(3), 10);
}
