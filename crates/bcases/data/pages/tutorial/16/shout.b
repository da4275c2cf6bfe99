/* Writes a string in capitals, and how long it is. */
main() {
    printn(shout("Hello!"), 10);
    putchar('*n');
}

shout(s) {
    auto i, c;

    i = 0;
    while((c = char(s, i)) != '*e') {
        if(c >= 'a' & c <= 'z')
            c = c - 'a' + 'A';
        putchar(c);
        i++;
    }
    putchar(' ');
    return(i);
}
