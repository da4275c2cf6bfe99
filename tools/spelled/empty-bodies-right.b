/* Bodies that are meant to be empty. */
first(s) {
    auto i;
    i = 0;
    while(char(s, i++) != '*e')
        ;
    return(i - 1);
}
second() {
    while(getchar() == ' ') ;
    return(0);
}
third(a) {
    if(a < 3)
        ;
    else
        putchar('x');
    switch a {
        case 1: ;
        case 2: putchar('2');
    }
}
fourth(p) {
    while(*p++) ;
    return(p);
}
v[3] 1, 2, 0;
main() {
    extrn v;
    printn(first("abc"), 10); second(); third(1); fourth(v);
}
