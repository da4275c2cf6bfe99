s "ab", t, 'x';
t;
main() {
    extrn s, t, main;
    printn(&s, 10); putchar(' ');
    printn(s, 10); putchar(' ');
    printn((&s)[1], 10); putchar(' ');
    printn(&t, 10); putchar(' ');
    printn(&main, 10); putchar(' ');
    printn(main, 10);
}
