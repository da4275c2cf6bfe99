main() {
    auto n;
    n = 472;
    while(n > 0) {
        putchar('0' + n / 10);
        n = n % 10;
    }
}
