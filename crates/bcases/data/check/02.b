/* The first program. */
main() {
    auto s, i, c;
    s = "hello, world*n";
    i = 0;
    while((c = char(s, i++)) != '*e')
        putchar(c);
}
