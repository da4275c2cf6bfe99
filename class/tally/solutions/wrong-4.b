/* Wrong: the condition assigns a newline to last, so the last line never counts. */
/* Told: this condition assigns */
main() {
    auto c, last, lines;

    lines = 0;
    last = '*n';
    while((c = getchar()) != '*e') {
        last = c;
        if(last = '*n')
            lines++;
    }
    printn(lines, 10);
    putchar('*n');
}
