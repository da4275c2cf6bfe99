/* How many lines the input has: each begins with a character after a newline or at the start. */
main() {
    auto c, isfirst, lines;

    lines = 0;
    isfirst = 1;
    while((c = getchar()) != '*e') {
        lines =+ isfirst;
        isfirst = (c == '*n');
    }
    printn(lines, 10);
    putchar('*n');
}
