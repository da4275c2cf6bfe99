/* Two lines of characters from the blank to ~. */
main() {
    auto i;

    i = 0;
    while(i++ < 80)
        putchar(i == 40 ? '*n' : ' ' + draw(95));
    putchar('*n');
}
