main() {
    auto s, i, c;
    s = "hi\n";
    for(i = 0; (c = char(s, i)) != '\0'; i++) putchar(c);
    for(i = 0; char(s, i); i++) ;
    if(char(s, 0) == 0) putchar('\0');
    while(c = getchar()) putchar(c);
    while((c = getchar()) != -1) putchar(c);
    c = getchar();
    if(c == -1 || !char(s, 1)) putchar('e');
}
