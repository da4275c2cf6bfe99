/* One character: a letter, a digit, or one beside them. */
main() {
    auto kind;

    kind = draw(4);
    if(kind == 0)
        putchar('a' + draw(26));
    else if(kind == 1)
        putchar('A' + draw(26));
    else if(kind == 2)
        putchar('0' + draw(10));
    else
        putchar(char("@[`{/:!~", draw(8)));
}
