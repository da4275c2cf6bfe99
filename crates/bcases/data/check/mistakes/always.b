main() {
    auto c, v 2;
    c = getchar();
    v[1] = c;
    if(c >= 'a' | c <= 'z')
        putchar('1');
    if(c != 'y' | c != 'n' | c != 'q')
        putchar('2');
    if(c == 'a' & c == 'b')
        putchar('3');
    while(c < '0' & c > '9')
        c = getchar();
    if(v[1] != 'a' | v[1] != 'b')
        putchar('4');
    if(c < 'a' | c > 'z')
        putchar('5');
    if(c != 'a' | v[1] != 'b')
        putchar('6');
    if(c == 'a' | c == 'b')
        putchar('7');
    if(c >= 'a' & c <= 'z')
        putchar('8');
}
