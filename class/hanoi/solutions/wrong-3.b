/* Wrong: the one disc is moved before those above it. */
main()
    move(getchar() - '0', 1, 3);

move(n, a, b) {
    if(n == 0)
        return;
    printn(a, 10);
    putchar(' ');
    printn(b, 10);
    putchar('*n');
    move(n - 1, a, 6 - a - b);
    move(n - 1, 6 - a - b, b);
}
