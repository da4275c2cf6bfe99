main() {
    auto s 5, i;

    i = 0;
    s[0] = ' ';
    if(s[i == ' ')
        putchar('a');
    putchar(getchar));
}
