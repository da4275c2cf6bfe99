main() {
    auto s 3, i;
    lchar(s, 0, 'h');
    lchar(s, 1, 'i');
    s[1] = 'ab';
    lchar(s, 2, '!');
    lchar(s, 5, 'y');
    lchar(s, 4, 'x');
    i = lchar(s, 6, '*n');
    printn(s[0], 10);
    putchar(i);
    i = 0;
    while(i < 7)
        putchar(char(s, i++));
}
