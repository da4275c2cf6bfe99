/* Wrong: a tower of no disc is never asked for, so 0 goes below 0. */
/* Told: This means: more than 4096 active calls. */
main()
    move(getchar() - '0', 1, 3);

move(n, a, b) {
    if(n != 1)
        move(n - 1, a, 6 - a - b);
    printn(a, 10);
    putchar(' ');
    printn(b, 10);
    putchar('*n');
    if(n != 1)
        move(n - 1, 6 - a - b, b);
}
