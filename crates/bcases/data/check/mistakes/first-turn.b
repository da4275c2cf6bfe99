prime(n) {
    auto d;
    d = 2;
    while(d < n) {
        if(n % d == 0)
            return(0);
        else
            return(1);
        d++;
    }
    return(1);
}
sign(n) {
    if(n > 0) {
        putchar('+');
        return(1);
    } else if(n < 0)
        return(-1);
    else
        return(0);
    putchar('*n');
}
next(n) {
    while(n < 9) {
        if(n == 5)
            goto on;
        else
            return(n);
        n =+ 2;
on:
        n++;
    }
    return(9);
}
last(n) {
    if(n > 0)
        return(1);
    else if(n < 0)
        return(2);
    putchar('0');
    goto end;
    putchar('1');
end:
    return(0);
}
main() {
    printn(prime(9), 10);
    printn(sign(9), 10);
    printn(next(4), 10);
    printn(last(0), 10);
}
