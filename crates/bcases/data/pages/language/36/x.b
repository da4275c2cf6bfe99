main() {
    auto c;
    while((c = getchar()) != '*e')
        putchar(c);
    putchar('!*n');
    printn(-5, 10); putchar(' ');
    printn(5, 2); putchar(' ');
    printn(64, 8);
    exit(200);
    putchar('x');
}
