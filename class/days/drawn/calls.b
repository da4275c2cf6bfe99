/* Months that are drawn, and others. */
main() {
    auto i;

    i = 0;
    while(i++ < 30) {
        printn(days(draw(16) - 1), 10);
        putchar(' ');
    }
}
