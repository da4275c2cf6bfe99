/* Of what kind the first character of the input is. */
main() {
    auto c;

    c = getchar();
    if(c >= 'a' & c <= 'z' | c >= 'A' & c <= 'Z')
        putstr("letter");
    else if(c >= '0' & c <= '9')
        putstr("digit");
    else
        putstr("other");
    putchar('*n');
}
