/* Wrong: the input ends with *e, which is 4, and not with 0. */
/* Told: It never ends: after */
main() {
    auto c;

    while((c = getchar()) != 0)
        if(c >= 'a' & c <= 'z')
            putchar((c - 'a' + 3) % 26 + 'a');
        else if(c >= 'A' & c <= 'Z')
            putchar((c - 'A' + 3) % 26 + 'A');
        else
            putchar(c);
}
