/* The larger one of two digits, as a number. */
main() {
    auto a, b;

    a = getchar() - '0';
    b = getchar() - '0';
    printn(a > b ? a : b, 10);
    putchar('*n');
}
