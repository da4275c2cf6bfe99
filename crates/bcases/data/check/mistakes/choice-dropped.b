upper(c)
    return(c >= 'a' & c <= 'z' ? c - 32 : c);
main() {
    auto c;
    while((c = getchar()) != '*e') {
        upper(c);
        putchar(c);
    }
}
