/* Wrong: capitals are no letters here. */
/* Told: Test capital: wrong */
main() {
    auto c;

    c = getchar();
    if(c >= 'a' & c <= 'z')
        putstr("letter");
    else if(c >= '0' & c <= '9')
        putstr("digit");
    else
        putstr("other");
    putchar('*n');
}
