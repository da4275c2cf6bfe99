main() {
    auto s, i, c;
    s = "ab";
    i = 0;
    if(getchar() < 5)
        i = 1;
    if(getchar() >= 'a')
        i = 1;
    if(getchar() == -2)
        i = 1;
    while(c = char(s, i) + 1)
        i++;
    c = getchar();
    while(c != 0 & i < 3)
        c = getchar();
    if(i =- c)
        i = 1;
    while(i + 1 == c)
        i++;
}
