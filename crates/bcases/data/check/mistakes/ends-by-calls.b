main() {
    auto c, i, s;
    s = "abc";
    i = 0;
    while(char(s, i))
        i++;
    while(char(s, i) & 1)
        i++;
    if(char(s, i) == 0)
        i = 1;
    if(char(s, i) != '*0')
        i = 1;
    if(char(s, i) > 0)
        i = 1;
    if(char(s, i) < 0)
        i = 1;
    if(char(s, i) >= 0)
        i = 1;
    if(char(s, i) == 4)
        i = 1;
    if(char(s, i) + 0)
        i = 1;
    if((c = char(s, i)) != 0)
        i = 1;
    while((c = char(s, i++)) > 0)
        i++;
    while(c = char(s, i))
        i++;
    while(c = char(s, i) + 1)
        i++;
    if(getchar() >= 0)
        i = 1;
    if(getchar() < 0)
        i = 1;
    if(getchar() == -1)
        i = 1;
    if(getchar() != -1)
        i = 1;
    if(getchar() > 0)
        i = 1;
    if(getchar() <= 0)
        i = 1;
    if(getchar() == 0)
        i = 1;
    if(getchar() == 1)
        i = 1;
    if(getchar() > -1)
        i = 1;
    while((c = getchar()) != -1)
        i = c;
    while(c = getchar())
        i = c;
    while(c = getchar() + 1)
        i = c;
    if(own(s, i) == 0)
        i = 1;
    if((c = own(s, i)) != 0)
        i = 1;
    printn(i, 10);
}
own(s, i) {
    return(s + i);
}
