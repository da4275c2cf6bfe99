getline(s, most) {
    auto i, c;
    i = 0;
    while((c = getchar()) != '*n' & c != '*e')
        if(i < most)
            lchar(s, i++, c);
    lchar(s, i, '*e');
    return(c == '*e' & i == 0 ? 0 : s);
}
copy(to, from) {
    auto i;
    i = 0;
    while(lchar(to, i, char(from, i)) != '*e')
        i++;
}
main() {
    auto line 10, name 2;
    copy(name, "Ken Thompson");
    while(getline(line, 80))
        putchar(char(line, 0) + char(name, 0));
}
