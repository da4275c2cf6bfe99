/* Wrong: the break stands after the switch, so the loop ends with the first character. */
/* Told: wrote  1 0 */
main() {
    auto c, vowels, blanks;

    vowels = blanks = 0;
    while((c = getchar()) != '*e') {
        switch c {
            case 'a': case 'e': case 'i': case 'o': case 'u':
                vowels++;
                break;
            case ' ':
                blanks++;
        }
        break;
    }
    printn(vowels, 10);
    putchar(' ');
    printn(blanks, 10);
    putchar('*n');
}
