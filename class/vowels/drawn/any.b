/* Letters and blanks, in two lines. */
main() {
    auto i;

    i = 0;
    while(i++ < 60)
        putchar(char("abcdefghijklmnopqrstuvwxyz    *n", draw(31)));
}
