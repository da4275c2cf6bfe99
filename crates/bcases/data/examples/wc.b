/* The lines, words and characters of the input. */
main() {
    auto c, lines, words, chars, inside;

    lines = words = chars = inside = 0;
    while((c = getchar()) != '*e') {
        chars++;
        if(c == '*n')
            lines++;
        if(c == ' ' | c == '*t' | c == '*n')
            inside = 0;
        else if(!inside) {
            inside = 1;
            words++;
        }
    }
    printn(lines, 10);
    putchar(' ');
    printn(words, 10);
    putchar(' ');
    printn(chars, 10);
    putchar('*n');
}
