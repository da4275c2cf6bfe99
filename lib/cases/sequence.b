/* input.b: the numbers of the input, and what getnum gives at its end, where the word stays. */
main() {
    auto n;

    n = 1972;
    while(getnum(&n)) {
        printn(n, 10);
        putchar(' ');
    }
    printn(n, 10);
    putchar(' ');
    printn(getnum(&n), 10);
}
