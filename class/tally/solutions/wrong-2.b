/* Wrong: it adds a line at the end in each case. */
/* Told: Test nothing: wrong */
main() {
    auto c, lines;

    lines = 0;
    while((c = getchar()) != '*e')
        if(c == '*n')
            lines++;
    printn(lines + 1, 10);
    putchar('*n');
}
