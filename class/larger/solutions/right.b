/* The larger one of two digits. */
main() {
    auto a, b;

    a = getchar();
    b = getchar();
    if(a > b)
        putchar(a);
    else
        putchar(b);
    putchar('*n');
}
