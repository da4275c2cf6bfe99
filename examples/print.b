/* A small formatted print: %d a number, %o to the base 8, %c a character, %s a string, %% a %. */
main()
    print("%s: %d is %o to the base 8, 100%% %s%c*n", "sum", 64, 64, "sure", '!');

/* The parameters stand one after another, so the next one is at the next address. */
print(form, a, b, c, d, e) {
    auto next, i, k;

    next = &a;
    i = 0;
    while((k = char(form, i++)) != '*e')
        if(k != '%')
            putchar(k);
        else if((k = char(form, i++)) == '%')
            putchar(k);
        else
            item(k, *next++);
}

item(kind, value) {
    switch kind {
        case 'd':
            return(printn(value, 10));
        case 'o':
            return(printn(value, 8));
        case 'c':
            return(putchar(value));
        case 's':
            string(value);
            return;
    }
    putchar('?');
}

string(s) {
    auto i, c;

    i = 0;
    while((c = char(s, i++)) != '*e')
        putchar(c);
}
