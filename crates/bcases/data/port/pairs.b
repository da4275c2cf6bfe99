main() {
    auto s;
    s = "ad";
    putchar('ab');
    if(s[0] == 'ad') putchar('y');
    if((97 << 9 | 100) == 'ad') putchar('z');
}
