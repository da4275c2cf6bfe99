/* Writes the input with each letter moved on by three places. */
main() {
    auto c;

    while((c = getchar()) != '*e')
        if(c >= 'a' & c <= 'z')
            putchar((c - 'a' + 3) % 26 + 'a');
        else if(c >= 'A' & c <= 'Z')
            putchar((c - 'A' + 3) % 26 + 'A');
        else
            putchar(c);
}
