main() {
    auto s, i, c;
    printn(017, 10); putchar(' ');
    printn('a', 10); putchar(' ');
    printn('ab', 10); putchar(' ');
    s = "*(*"**'*)";  /* five characters */
    i = 0;
    while((c = char(s, i++)) != '*e')
        putchar(c);
}
