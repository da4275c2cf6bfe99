divisors(n) {
    auto d, count;
    count = 0;
    d = 1;
    while(d <= n) {
        if(n % d == 0)
            count++;
        d++;
    }
    return(count);
}
prime(n) {
    auto d;
    d = 2;
    while(d * d <= n) {
        if(n % d == 0)
            return(0);
        d++;
    }
    return(n > 1);
}
chance(n) {
    if(n < 0)
        return(0);
    if(n == 0)
        return(1);
    return(n * chance(n - 1));
}
value(n) {
    auto v, i;
    v = 0;
    i = 0;
    while(i < n) {
        v = v * 10;
        v = v + i;
        i++;
    }
    return(v);
}
cut(n) {
    auto rest;
    rest = n;
    while(rest > 0) {
        if(rest < 10)
            return(rest);
        rest = rest % 10;
    }
    return(0);
}
main() {
    auto n, count, sum;
    sum = count = 0;
    n = 1;
    while(n < 5) {
        sum =+ value(n) + cut(n) + chance(n);
        if(prime(n) | divisors(n) > 2)
            count++;
        n++;
    }
    if(count)
        printn(sum / count, 10);
}
