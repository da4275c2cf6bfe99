/* A stair with as many steps as the digit of the input says: each line has its blanks, and then its stars. */
main() {
    auto steps, row;

    steps = getchar() - '0';
    row = 0;
    while(row++ < steps) {
        many(' ', steps - row);
        many('**', row);
        putchar('*n');
    }
}

many(c, n)
    while(n-- > 0)
        putchar(c);
