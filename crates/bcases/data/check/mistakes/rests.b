days[6] "mo", "tu", "we", "th", "fr", "sa", "su";
shift(c, n)
    return('a' + (c - 'a' - n) % 26);
day(d, n) {
    extrn days;
    return(days[(d - n) % 7]);
}
turned(c, n) {
    auto k;
    k = (c - 'A' - n) % 26;
    return('A' + k);
}
main() {
    putchar(shift('c', 5));
    putchar(turned('C', 5));
    putchar(char(day(1, 3), 0));
}
