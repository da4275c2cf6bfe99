/* input.b: a number, and then as many lines: getnum takes the newline after the number. */
main() {
    auto line 10, n, i, c;

    getnum(&n);
    while(n-- > 0) {
        getline(line, 20);
        putchar('<');
        i = 0;
        while((c = char(line, i++)) != '*e')
            putchar(c);
        putchar('>');
    }
}
