/* Wrong: the blanks are made of what was counted, and so are short of the letters between. */
main() {
    auto c, vowels, blanks;

    vowels = blanks = 0;
    while((c = getchar()) != '*e') {
        switch c {
            case 'a': case 'e': case 'i': case 'o': case 'u':
                vowels++;
            case ' ':
                blanks++;
        }
        blanks = blanks - vowels;
    }
    printn(vowels, 10);
    putchar(' ');
    printn(blanks, 10);
    putchar('*n');
}
