/* Wrong: it writes the smaller one. */
/* Told: wrote  3 */
main() {
    auto a, b;

    a = getchar();
    b = getchar();
    if(a < b)
        putchar(a);
    else
        putchar(b);
    putchar('*n');
}
