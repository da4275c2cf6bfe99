length(s) {
    auto n;
    n = 0;
    while(char(s, n) != '*e')
        n++;
    return(n);
}
main() {
    auto s, i, n;
    s = "abc";
    n = length(s);
    i = 0;
    while(i < n) {
        putchar(char(s, n - i));
        i++;
    }
    i = length(s);
    while(i >= 0) {
        putchar(char(s, i));
        i--;
    }
    n = 0;
    while(char(s, n) != '*e')
        n++;
    i = 0;
    while(i < n / 2) {
        if(char(s, i) != char(s, n - i))
            putchar('n');
        i++;
    }
}
