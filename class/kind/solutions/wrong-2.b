/* Wrong: the condition assigns, so everything is a letter. */
/* Told: this condition assigns */
main() {
    auto c, isdigit;

    c = getchar();
    isdigit = c >= '0' & c <= '9';
    if(isdigit = 0)
        putstr("digit");
    else
        putstr("letter");
    putchar('*n');
}
