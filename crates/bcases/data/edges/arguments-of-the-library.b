/* Missing arguments are 0, and further ones are dropped. */
main() {
    auto s;

    s = 25185;
    putchar('a', 'b', 'c');
    printn(5, 10, 2);
    putchar(char(&s, 1, 0, 7));
    lchar(&s, 0, 'x', 'y');
    printn(s, 10);
    putchar();
    printn(char(&s), 10);
    printn(getchar(1, 2, 3), 10);
    lchar(&s, 1);
    printn(s, 10);
    exit();
}
