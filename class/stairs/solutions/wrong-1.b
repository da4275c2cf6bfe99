/* Wrong: nothing is added to row, so the loop doesn't end. */
/* Told: It never ends: after */
main() {
    auto steps, row, i;

    steps = getchar() - '0';
    row = 1;
    while(row <= steps) {
        i = 0;
        while(i < steps) {
            putchar(i < steps - row ? ' ' : '**');
            i++;
        }
        putchar('*n');
    }
}
