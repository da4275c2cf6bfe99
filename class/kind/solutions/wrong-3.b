/* Wrong: the characters of digits aren't the numbers 0 to 9. */
/* Told: Test zero: wrong */
main() {
    auto c;

    c = getchar();
    if(c >= 'a' & c <= 'z' | c >= 'A' & c <= 'Z')
        putstr("letter");
    else if(c >= 0 & c <= 9)
        putstr("digit");
    else
        putstr("other");
    putchar('*n');
}
