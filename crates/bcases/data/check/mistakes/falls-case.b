days(m) {
    auto d;
    d = 31;
    switch m {
        case 2:
            d = 28;
        case 4:
            d = 30;
            goto done;
        case 6: case 9:
            d = 30;
            goto done;
        case 11:
            d = 30;
    }
done:
    return(d);
}
kind(c) {
    switch c {
        case 'a': putchar('1'); return;
        case 'b': c = 'c';
        case 'd': putchar(c); return;
        case 'e': putchar('2'); return;
    }
}
main() {
    printn(days(2), 10);
    kind('b');
}
