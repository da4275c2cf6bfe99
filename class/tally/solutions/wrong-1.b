/* Wrong: it is as it was: a last line without a newline doesn't count. */
/* Told: Test open: wrong */
main() {
    auto c, lines;

    lines = 0;
    while((c = getchar()) != '*e')
        if(c == '*n')
            lines++;
    printn(lines, 10);
    putchar('*n');
}
