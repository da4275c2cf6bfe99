/* Wrong: it ends at the first newline. */
/* Told: wanted mxpsv ryhu wkh odcb grj. */
main() {
    auto c;

    while((c = getchar()) != '*n')
        if(c >= 'a' & c <= 'z')
            putchar((c - 'a' + 3) % 26 + 'a');
        else if(c >= 'A' & c <= 'Z')
            putchar((c - 'A' + 3) % 26 + 'A');
        else
            putchar(c);
}
