main() {
    auto s, i, c, n, p;
    s = "ab";
    i = 0;
    if(char(s, i) == 'a')
        i = 1;
    if(char(s, i) != '*e')
        i = 1;
    if(char(s, i) == 4)
        i = 1;
    if((c = getchar()) != '*e')
        putchar(c);
    if(getchar() == 1)
        i = 1;
    if(getchar() > 0)
        i = 1;
    if(char(s, i) < 0)
        i = 1;
    while((c = char(s, i)) != '*e')
        i++;
    n = 3;
    while(n)
        n--;
    while(n != 0)
        n--;
    c = 1;
    while(c)
        c = getchar();
    p = "cd";
    if(n)
        p = s;
    while(*p)
        p++;
    while(c != 4)
        c = getchar();
}
