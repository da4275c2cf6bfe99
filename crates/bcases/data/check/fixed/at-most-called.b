main() {
    auto s, i;

    s = "a5";
    i = 1;
    if(char(s, i) =< '9')
        putchar(char(s, i));
    if((i + 1) =< 3)
        putchar('b');
}
