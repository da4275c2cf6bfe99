/* Letters and newlines, and at the end the one or the other. */
main() {
    auto i;

    i = 0;
    while(i++ < 30)
        putchar(draw(4) ? 'a' + draw(26) : '*n');
    if(draw(2))
        putchar('*n');
}
