/* Wrong: the upper discs go to b first, and not to the third peg. */
main()
    move(getchar() - '0', 1, 3);

move(n, a, b) {
    if(n == 0)
        return;
    move(n - 1, a, b);
    printn(a, 10);
    putchar(' ');
    printn(b, 10);
    putchar('*n');
    move(n - 1, 6 - a - b, b);
}
