masks[2] 010, 020, 040;
modes[2] 0644, 0755, 0600;
ends[2] 017, 070, 0100;
table[1] "ab", "cd";
getline(s, most) {
    auto i, c;
    i = 0;
    while((c = getchar()) != '*n' & c != '*e')
        if(i < most)
            lchar(s, i++, c);
    lchar(s, i, '*e');
    return(c == '*e' & i == 0 ? 0 : s);
}
shift(c, n)
    return('a' + (c - 'a' + 26 - n) % 26);
moved(c, base, n)
    return(base + (c - base + n) % 26);
digit(s, i)
    return('0' + (char(s, i) - '0') % 10);
before(i, n)
    return((i - 1 + n) % n);
apart(a, b)
    return((a - b) % 7 == 0);
left(a, b)
    return(!a & !b | !a & b == 3 | !a * b);
spread(v) {
    auto i;
    i = 0;
    while(v[i] != '*e')
        putchar(v[i++]);
}
sign(c) {
    auto n;
    n = 0;
    switch c {
    case '-':
        n = 1;
    case '+':
        putchar(c);
    case ' ':
        return(n);
    }
    return(n);
}
main() {
    extrn table, masks, modes, ends;
    auto line 40, v 20, i, w;
    while(getline(line, 80)) {
        putchar(shift(char(line, 0), 3));
        putchar(moved(char(line, 1), 'a', 3));
    }
    i = 0;
    while(i < 3) {
        v[i] = char("abc", i);
        i++;
    }
    v[i] = '*e';
    spread(v);
    w = v;
    printn(w[before(2, 3)] + digit("42", 1) + apart(9, 2) + left(0, 3), 10);
    putchar(char(table[1], 0));
    printn(masks[0] + modes[1] + ends[2] + sign('-'), 10);
}
