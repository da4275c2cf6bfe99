/* input.b: the lines of the input, and what getstr gives at its end, where the string is empty. */
main() {
    auto line 20;

    while(getstr(line) == line)
        show(line);
    printn(getstr(line), 10);
    show(line);
}

show(s) {
    auto i, c;

    putchar('<');
    i = 0;
    while((c = char(s, i++)) != '*e')
        putchar(c);
    putchar('>');
}
