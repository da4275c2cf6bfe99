twice(x) {
    x = x * 2;
    return(x);
}
say(x) {
    x = x + '0';
    putchar(x);
    return(x);
}
half(x) return(x / 2);
main() {
    auto n;
    n = 4;
    twice(n);
    say(n);
    half(n);
    n = twice(n);
    printn(n, 10);
}
