/* Guesses a number from 1 to 100 that the player thinks of: answer l if it is lower, h if higher, y if right. */
main() {
    auto low, high, middle, c;

    low = 1;
    high = 100;
    while(low <= high) {
        middle = (low + high) / 2;
        putstr("Is it ");
        printn(middle, 10);
        putstr("? ");
        c = answer();
        if(c == 'y' | c == '*e')
            high = 0;
        else if(c == 'l')
            high = middle - 1;
        else
            low = middle + 1;
    }
    putstr(c == 'y' ? "I knew it.*n" : "Really?*n");
}

/* The first character of a line, or the end. */
answer() {
    auto c, d;

    c = d = getchar();
    while(d != '*n' & d != '*e')
        d = getchar();
    return(c);
}

putstr(s) {
    auto i, c;

    i = 0;
    while((c = char(s, i++)) != '*e')
        putchar(c);
}
