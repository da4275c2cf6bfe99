f(a) { auto v 1, i; L: v[i] =+ a; switch a { case 2: goto L; } return(i); }
main() {
    f(1);
    printn(*9, 10); putchar(' ');
    printn(*10, 10); putchar(' ');
    printn(*11, 10); putchar(' ');
    printn(*12, 10); putchar(' ');
    printn(*13, 10);
}
