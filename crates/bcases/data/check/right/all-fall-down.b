gifts(day) {
    switch day {
        case 3:
            putstr("three hens*n");
        case 2:
            putstr("two doves*n");
        case 1:
            putstr("and a partridge*n");
    }
}
main()
    gifts(3);
putstr(s) {
    auto i, c;
    i = 0;
    while((c = char(s, i++)) != '*e')
        putchar(c);
}
