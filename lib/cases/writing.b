/* print.b: a line or more of each function that writes. */
main() {
    strings();
    putchar('*n');
    numbers();
    putchar('*n');
    octals();
    putchar('*n');
    formats();
    putchar('*n');
    flushes();
    putchar('*n');
}

strings() {
    auto s 1;

    putstr("");
    putstr("a");
    putstr("bc");
    putstr("def*n");
    lchar(s, 0, 195);
    lchar(s, 1, 169);
    lchar(s, 2, '*e');
    putstr(s);
    putstr(0);
    putnumb(putstr("!"));
}

numbers() {
    putnumb(0);
    putchar(' ');
    putnumb(-7);
    putchar(' ');
    putnumb(32767);
    putchar(' ');
    putnumb(1 << 15);
    putchar(' ');
    putnumb(65535);
    putchar(' ');
    putnumb(putnumb());
}

octals() {
    auto n;

    putoct(0);
    n = 1;
    while(n) {
        putchar(' ');
        putoct(n - 1);
        putchar(' ');
        putoct(n);
        n =<< 3;
    }
    putchar(' ');
    putoct(-1);
    putchar(' ');
    putnumb(putoct(1972));
}

formats() {
    printf("");
    printf("%d %d %d*n", -1, 1 << 15, 32767);
    printf("%o %o %o*n", 64, -1, 1 << 15);
    printf("%c%c%c*n", 'a', 'bc', '%');
    printf("<%s> <%s> <%s>*n", "", "x", "%d");
    printf("%%d %%%d%%*n", 5);
    printf("%y %5y %D %d*n", 7);
    printf("<%d%s%c>*n", 1, "2", '3', '4');
    printf("<%d%s%d>*n", 1);
    printf("%d%d%d%d%d%d%d%d%d%d*n", 1, 2, 3, 4, 5, 6, 7, 8, 9, 1);
    printf("%-%d%d%d%d%d%d%d%d%d%d*n", 1, 2, 3, 4, 5, 6, 7, 8, 9, 1);
    printf("%d*n", printf("a%"));
}

flushes() {
    putstr("a");
    putnumb(flush());
}
