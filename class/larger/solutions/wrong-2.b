/* Wrong: it writes the number of the character, and not the digit. */
/* Told: wrote  53 */
main() {
    auto a, b;

    a = getchar();
    b = getchar();
    if(a > b)
        printn(a, 10);
    else
        printn(b, 10);
    putchar('*n');
}
