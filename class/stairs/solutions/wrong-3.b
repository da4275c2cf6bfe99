/* Wrong: the digit is a character, and not the number that it stands for. */
/* Told: Test none: wrong */
main() {
    auto steps, row, i;

    steps = getchar();
    row = 1;
    while(row <= steps) {
        i = 0;
        while(i < steps) {
            putchar(i < steps - row ? ' ' : '**');
            i++;
        }
        putchar('*n');
        row++;
    }
}
