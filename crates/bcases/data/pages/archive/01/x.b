/* The numbers before sizes that are 0, and eight times each. */
sizes[3] 1, 010, 0100;

main() {
    extrn sizes;
    auto i, where;

    i = 0;
    where = again;
again:
    write("#_times 8 is #, ", sizes[i], sizes[i] << 3);
    i =+ 1;
    if(i < 4 & sizes[i] != 0)
        goto where;
    putchar('en');
    putchar('d');
    exit();
}

/* Writes a string, with the next argument for each #, and a blank for each _. */
write(form, a, b) {
    auto next, at, c;

    next = &a;
    at = 0;
    while((c = char(form, at++)) != '*e') {
        switch c {
            case '#':
                printn(*next++);
                goto on;
            case '_':
                c = ' ';
        }
        putchar(c);
on:
        ;
    }
}

printn(n) {
    auto rest;

    if(rest = n / 10)
        printn(rest);
    putchar(n % 10 + '0');
}
