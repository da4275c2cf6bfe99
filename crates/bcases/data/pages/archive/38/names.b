main() {
    auto first 10, last 10, both 20;

    putstr("First name?*n");
    flush();
    getstr(first);
    putstr("Last name?*n");
    flush();
    getstr(last);
    concat(both, last, ", ", first);
    printf("%s has %d letters.*n", both, letters(both));
}

letters(s) {
    auto i, n, c;

    i = n = 0;
    while((c = char(s, i++)) != '*e')
        n =+ c >= 'a' & c <= 'z' | c >= 'A' & c <= 'Z';
    return(n);
}
