/* Writes the input with a number before each line. */
main() {
    auto c, line, isfirst;

    line = 0;
    isfirst = 1;
    while((c = getchar()) != '*e') {
        if(isfirst) {
            line++;
            printn(line, 10);
            putchar(' ');
        }
        putchar(c);
        isfirst = (c == '*n');
    }
}
