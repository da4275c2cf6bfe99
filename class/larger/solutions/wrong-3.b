/* Wrong: there is no else, so the second digit comes in each case. */
/* Told: wrote  90 */
main() {
    auto a, b;

    a = getchar();
    b = getchar();
    if(a > b)
        putchar(a);
    putchar(b);
    putchar('*n');
}
