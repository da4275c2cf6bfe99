main() {
    auto c, tries;
    tries = c = 0;
    while(c != '6' & tries < 5) {
        c = getchar();
        tries++;
        if(c < '6')
            putstr("too small*n");
        if(c > '6')
            putstr("too large*n");
    }
}
putstr(s) {
    auto i, c;
    i = 0;
    while((c = char(s, i++)) != '*e')
        putchar(c);
}
