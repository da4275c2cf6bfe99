/* Wrong: nothing ends the calls. */
/* Told: This means: more than 4096 active calls. */
main()
    move(getchar() - '0', 1, 3);

move(n, a, b) {
    move(n - 1, a, 6 - a - b);
    printn(a, 10);
    putchar(' ');
    printn(b, 10);
    putchar('*n');
    move(n - 1, 6 - a - b, b);
}
