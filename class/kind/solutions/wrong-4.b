/* Wrong: each condition reads another character. */
main() {
    if(getchar() >= 'a' & getchar() <= 'z')
        putstr("letter");
    else if(getchar() >= '0' & getchar() <= '9')
        putstr("digit");
    else
        putstr("other");
    putchar('*n');
}
