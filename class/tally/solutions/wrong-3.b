/* Wrong: the input ends with *e, which is 4, and not with 0, so the loop doesn't end. */
/* Told: It never ends: after */
main() {
    auto c, last, lines;

    lines = 0;
    last = '*n';
    while((c = getchar()) != 0) {
        if(c == '*n')
            lines++;
        last = c;
    }
    if(last != '*n')
        lines++;
    printn(lines, 10);
    putchar('*n');
}
