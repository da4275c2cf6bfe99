/* Numbers that are drawn, with two digits and with four. */
main() {
    auto i;

    i = 0;
    while(i++ < 12) {
        printn(digits(draw(100)), 10);
        putchar(' ');
        printn(digits(draw(8000)), 10);
        putchar('*n');
    }
}
