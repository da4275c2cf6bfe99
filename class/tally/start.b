/* How many lines the input has, with a mistake. */
main() {
    auto c, lines;

    lines = 0;
    while((c = getchar()) != '*e')
        if(c == '*n')
            lines++;
    printn(lines, 10);
    putchar('*n');
}
