main() {
    auto n, i, c;
    n = 7;
    putchar(n);
    putchar(5);
    i = 0;
    while(i < 5)
        putchar(i++);
    i = 0;
    while(i < 5) {
        putchar(i);
        i++;
    }
    c = 0;
    while(c < 128) {
        putchar(c);
        c++;
    }
    putchar('0' + n);
    putchar(10);
}
