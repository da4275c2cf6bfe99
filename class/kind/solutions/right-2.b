/* Of what kind the first character of the input is, by a function, and with two characters in each putchar. */
main() {
    auto c;

    c = getchar();
    if(within(c, 'a', 'z') + within(c, 'A', 'Z')) {
        putchar('le');
        putchar('tt');
        putchar('er');
    } else if(within(c, '0', '9')) {
        putchar('di');
        putchar('gi');
        putchar('t');
    } else {
        putchar('ot');
        putchar('he');
        putchar('r');
    }
    putchar('*n');
}

within(c, from, to) {
    if(c < from)
        return(0);
    return(c <= to);
}
