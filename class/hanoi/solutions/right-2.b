/* The moves of the tower of Hanoi, with a function that writes one. */
main() {
    auto n;

    n = getchar() - '0';
    if(n > 0)
        move(n, 1, 3);
}

move(n, a, b) {
    auto by;

    by = 6 - a - b;
    if(n > 1)
        move(n - 1, a, by);
    tell(a, b);
    if(n > 1)
        move(n - 1, by, b);
}

tell(a, b) {
    putchar('0' + a);
    putchar(' ');
    putchar('0' + b);
    putchar('*n');
}
