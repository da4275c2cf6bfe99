/* Three numbers that are drawn, with equal ones among them. */
main() {
    auto i, a, b;

    i = 0;
    while(i++ < 20) {
        a = draw(9) - 4;
        b = draw(9) - 4;
        printn(middle(a, b, draw(9) - 4), 10);
        putchar('*n');
    }
}
