half(n) {
    auto n, rest;
    rest = n / 2;
    return(rest);
}
main() printn(half(6), 10);
