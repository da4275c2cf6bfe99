/* Writes the input with each letter moved on by three places, by a function. */
main() {
    auto c;

    c = getchar();
    while(c != '*e') {
        putchar(moved(moved(c, 'a'), 'A'));
        c = getchar();
    }
}

moved(c, first) {
    if(c < first | c > first + 25)
        return(c);
    return(c > first + 22 ? c - 23 : c + 3);
}
