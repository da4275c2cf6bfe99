main() {
    auto s 5, i, c;
    for(i = 0; (c = char("ab", i)) != '*0'; i++) lchar(s, i, c);
    lchar(s, i, '*0');
    if(c == '*0') putchar('*0');
}
