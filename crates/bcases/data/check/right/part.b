digits(n) {
    auto d;
    d = n % 10;
    return(d);
}
