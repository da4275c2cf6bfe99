/* Wrong: the last line is missing. */
/* Told: wrote  (no such line) */
main() {
    auto steps, row, i;

    steps = getchar() - '0';
    row = 1;
    while(row < steps) {
        i = 0;
        while(i < steps) {
            putchar(i < steps - row ? ' ' : '**');
            i++;
        }
        putchar('*n');
        row++;
    }
}
