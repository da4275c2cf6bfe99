/* How many vowels and blanks the input has, by conditions. */
main() {
    auto c, vowels, blanks;

    vowels = blanks = 0;
    while((c = getchar()) != '*e')
        if(c == ' ')
            blanks++;
        else if(c == 'a' | c == 'e' | c == 'i' | c == 'o' | c == 'u')
            vowels++;
    printn(vowels, 10);
    putchar(' ');
    printn(blanks, 10);
    putchar('*n');
}
