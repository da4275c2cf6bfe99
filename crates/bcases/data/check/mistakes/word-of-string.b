/* s[i] is a word of two characters. */
main() {
    auto s, t, v 3, i;
    s = "abc";
    i = 0;
    if(s[i] == 'x')
        putchar('x');
    while(s[i] != '*e' & i < 3)
        i++;
    if('a' == s[0])
        i = s[2] != 'c' ? 1 : 0;
    if(*s == 'a' | s[i + 1] == 'b')
        putchar('a');
    t = v;
    v[0] = 'a';
    if(v[0] == 'a' & t[0] == 'a')
        putchar('v');
    if(char(s, i) == 'x' | s[0] == 'ab')
        putchar('s');
    if(i == 'i')
        t = s;
}
