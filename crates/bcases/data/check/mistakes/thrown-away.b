gcd(a, b) {
    if(b == 0)
        return(a);
    gcd(b, a % b);
}
sale(price) {
    auto less;
    less = price / 5;
    return(price - less);
}
count(s, c) {
    auto i, n;
    i = n = 0;
    while(char(s, i) != '*e') {
        if(char(s, i) == c)
            n++;
        i++;
    }
    return(n);
}
total;
add(x) {
    extrn total;
    total =+ x;
    return(total);
}
main() {
    auto price, s;
    s = "trees";
    price = gcd(9, 6) * 25;
    sale(price);
    count(s, 'e');
    add(price);
    if(price > 20)
        sale(price);
    printn(price, 10);
}
