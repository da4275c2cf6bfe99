compare(s, t) {
    auto i;
    i = 0;
    while(char(s, i) == char(t, i)) {
        if(char(s, i) == '*e')
            return(0);
        i++;
    }
    return(char(s, i) - char(t, i));
}
main() {
    auto s, t 4, i;
    s = "ana";
    i = 0;
    while(i < 3) {
        lchar(t, i, char(s, 2 - i));
        i++;
    }
    if(compare(s, t) == 0)
        putchar('y');
}
