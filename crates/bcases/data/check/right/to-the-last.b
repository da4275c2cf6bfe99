length(s) {
    auto n;
    n = 0;
    while(char(s, n) != '*e')
        n++;
    return(n);
}
insert(s, c) {
    auto i;
    i = length(s);
    while(i >= 0) {
        lchar(s, i + 1, char(s, i));
        i--;
    }
    lchar(s, 0, c);
}
turn(to, from) {
    auto i, n;
    n = length(from);
    i = 0;
    while(i < n) {
        lchar(to, i, char(from, n - 1 - i));
        i++;
    }
    lchar(to, i, '*e');
}
shout(s) {
    auto i, c;
    i = 0;
    while((c = char(s, i)) != '*e') {
        if(c >= 'a' & c <= 'z')
            lchar(s, i, c - 32);
        i++;
    }
}
copy(to, from) {
    auto i, n;
    n = length(from);
    i = 0;
    while(i <= n) {
        lchar(to, i, char(from, i));
        i++;
    }
}
main() {
    auto a 20, b 20;
    copy(a, "abc");
    insert(a, 'x');
    turn(b, a);
    shout(b);
    putchar(char(b, 0));
}
