/* A loop over the input that ends at 0, and the end of a string. */
main() {
    auto c, s, i;
    s = "abc";
    while((c = getchar()) != 0)
        putchar(c);
    while((c = getchar()) != '*0' & c != 'q')
        putchar(c);
    i = 0;
    if((c = char(s, i)) != 0)
        putchar(c);
    while((c = char(s, i++)) != 0) putchar(c);
    while((c = getchar()) != '*e')
        if(c != 0)
            putchar(c);
    if((c = getchar()) != 0)
        putchar(c);
    while((c = getchar()) != 'q') putchar(c);
}
