main() {
    auto c, d;
    c = getchar();
    d = getchar() - '0';
    if(c == 5)
        putchar('a');
    if(c >= 0 & c <= 9)
        putchar('b');
    if(c == 10 | c == 4 | c < 32)
        putchar('c');
    if(d == 5)
        putchar('d');
    switch c {
        case 1: putchar('1');
        case '2': putchar('2');
    }
}
