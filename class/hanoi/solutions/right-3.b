/* The moves of the tower of Hanoi. */
main()
    move(getchar() - '0', 1, 3);

/* Moves n discs from a to b. */
move(n, a, b) {
    if(n == 0)
        return;
    move(n - 1, a, 6 - a - b);
    printf("%d %d*n", a, b);
    move(n - 1, 6 - a - b, b);
}
