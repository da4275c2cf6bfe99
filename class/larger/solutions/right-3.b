/* The larger one of two digits. */
main() {
    auto a, b;

    a = getchar();
    b = getchar();
    printf("%c*n", a > b ? a : b);
}
