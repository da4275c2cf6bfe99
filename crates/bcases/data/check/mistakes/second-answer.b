putstr(s) {
    auto c, i;
    i = 0;
    while((c = char(s, i++)) != '*e')
        putchar(c);
}
main() {
    auto a, b, c;
    putstr("first digit: ");
    a = getchar() - '0';
    putstr("second digit: ");
    b = getchar() - '0';
    getchar();
    putstr("third digit: ");
    c = getchar() - '0';
    printn(a + b + c, 10);
}
