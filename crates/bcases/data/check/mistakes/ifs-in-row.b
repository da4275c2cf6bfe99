main() {
    auto p, g;
    p = getchar();
    if(p >= 90)
        putchar('A');
    if(p >= 80)
        putchar('B');
    if(p >= 70)
        putchar('C');
    else
        putchar('F');
    if(p < 10) g = 'a';
    if(p < 20) { g = 'b'; }
    putchar(g);
    if(p >= 50)
        putchar('c');
    if(p >= 40)
        putchar('d');
    if(p > 90)
        putchar('x');
    else if(p > 80)
        putchar('y');
    else
        putchar('z');
    if(p > 70) putchar('0'); else putchar('1');
    if(p >= 90) return;
    if(p >= 80) putchar('2');
    else putchar('3');
}
