/* Wrong: the break comes before the statement that counts. */
/* Told: wrote  0 1 */
main() {
    auto c, vowels, blanks;

    vowels = blanks = 0;
    while((c = getchar()) != '*e')
        switch c {
            case 'a': case 'e': case 'i': case 'o': case 'u':
                break;
                vowels++;
            case ' ':
                blanks++;
        }
    printn(vowels, 10);
    putchar(' ');
    printn(blanks, 10);
    putchar('*n');
}
