/* How many lines the input has: each newline ends one, and so does the end after another character. */
main() {
    auto c, last, lines;

    lines = 0;
    last = '*n';
    while((c = getchar()) != '*e') {
        if(c == '*n')
            lines++;
        last = c;
    }
    if(last != '*n')
        lines++;
    printf("%d*n", lines);
}
