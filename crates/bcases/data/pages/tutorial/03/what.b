/* Tells of what kind the first character of the input is. */
main() {
    auto c;

    c = getchar();
    if(c >= '0' & c <= '9')
        putstr("a digit");
    else if(c == ' ' | c == '*n')
        putstr("a blank");
    else
        putstr("another one");
    putchar('*n');
}
