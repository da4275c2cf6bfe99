/* Writes the input with each letter moved on by three places. */
main() {
    auto c;

    while((c = getchar()) != '*e')
        printf("%c", moved(moved(c, 'a'), 'A'));
}

/* Moves a letter on, in the alphabet that begins with the letter a. */
moved(c, a)
    return(c >= a & c < a + 26 ? (c - a + 3) % 26 + a : c);
