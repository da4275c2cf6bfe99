/* How many vowels and blanks the input has. */
main() {
    auto c, vowels, blanks;

    vowels = blanks = 0;
    while((c = getchar()) != '*e')
        switch c {
            case 'a': case 'e': case 'i': case 'o': case 'u':
                vowels++;
                break;
            case ' ':
                blanks++;
        }
    printf("%d %d*n", vowels, blanks);
}
