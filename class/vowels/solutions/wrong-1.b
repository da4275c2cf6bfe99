/* Wrong: it is as it was: a vowel goes on into the case of the blank. */
/* Told: wrote  5 5 */
main() {
    auto c, vowels, blanks;

    vowels = blanks = 0;
    while((c = getchar()) != '*e')
        switch c {
            case 'a': case 'e': case 'i': case 'o': case 'u':
                vowels++;
            case ' ':
                blanks++;
        }
    printn(vowels, 10);
    putchar(' ');
    printn(blanks, 10);
    putchar('*n');
}
