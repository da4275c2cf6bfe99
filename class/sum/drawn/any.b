/* Some numbers in a line or two, or none. */
main() {
    auto n;

    n = draw(12);
    while(n-- > 0) {
        printn(draw(400) - 100, 10);
        putchar(draw(4) ? ' ' : '*n');
    }
    putchar('*n');
}
