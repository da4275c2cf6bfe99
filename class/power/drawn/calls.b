/* Powers of numbers that are drawn, and first one that is 1. */
main() {
    auto i, b;

    i = 0;
    while(i++ < 12) {
        b = 2 + draw(12);
        printn(power(i % 2 ? b : -b, i == 1 ? 0 : draw(7)), 10);
        putchar('*n');
    }
}
