/* input.b: getline of at most three characters, which leaves the words after them alone. */
main() {
    auto line 2;

    line[2] = 1972;
    while(getline(line, 3))
        show(line);
    printn(line[2], 10);
}

show(s) {
    auto i, c;

    putchar('<');
    i = 0;
    while((c = char(s, i++)) != '*e')
        putchar(c);
    putchar('>');
}
