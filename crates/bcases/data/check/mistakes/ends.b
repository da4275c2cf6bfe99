main() {
    auto s, i, c;
    s = "ab";
    i = 0;
    if(char(s, i) == 0)
        i = 1;
    if(char(s, i) != 0)
        i = 1;
    if(char(s, i) > 0)
        i = 1;
    if(char(s, i) == '*0')
        i = 1;
    if((c = char(s, i)) != 0)
        putchar(c);
    while(char(s, i))
        i++;
    while(c = char(s, i))
        i++;
    while(c = getchar())
        putchar(c);
    if(getchar() >= 0)
        i = 1;
    if(getchar() < 0)
        i = 1;
    if(getchar() == -1)
        i = 1;
    if(getchar() != -1)
        i = 1;
    if((c = getchar()) != -1)
        putchar(c);
}
