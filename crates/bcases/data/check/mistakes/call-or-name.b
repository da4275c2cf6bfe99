main() {
    auto f;

    f = square;
    printn(f(3), 10);
}
square(n) {
    return(n * n);
}
