season(month) {
    switch month {
        case 12: case 1: case 2:
            putstr("winter");
        case 3: case 4: case 5:
            putstr("spring");
        case 6: case 7: case 8:
            putstr("summer");
    }
}
main()
    season(1);
putstr(s) {
    auto i, c;
    i = 0;
    while((c = char(s, i++)) != '*e')
        putchar(c);
}
