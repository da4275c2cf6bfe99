main() {
    auto n;
    n = 5;
    if((n > 3) and (n < 10))
        putchar('y');
}
