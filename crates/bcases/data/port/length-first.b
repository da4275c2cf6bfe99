main() {
    auto s, i, n;
    s = "abc";
    n = char(s, 0);
    i = 1;
    while(i <= n)
        putchar(char(s, i++));
    i = 0;
    while(i < char(s, 0))
        i++;
    printn(getbyte(s, 0), 10);
    n = char(s, 0);
}

getbyte(s, i) return(char(s, i));

upper(s) {
    auto c;
    c = char(s, 0);
    if(c >= 'a' & c <= 'z')
        c = c - 'a' + 'A';
    return(c);
}
