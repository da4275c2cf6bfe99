/* A stair with as many steps as the digit of the input says. */
main() {
    auto steps, row, i;

    steps = getchar() - '0';
    row = 1;
    while(row <= steps) {
        i = 0;
        while(i < steps) {
            putstr(i < steps - row ? " " : "**");
            i++;
        }
        putchar('*n');
        row++;
    }
}
