grade(p) {
    auto g;
    if(p >= 50)
        g = 'c';
    if(p >= 70)
        g = 'b';
    else
        g = 'f';
    if(p >= 50) g = 'c';
    if(p >= 70) g = 'b';
    if(p < 10) { putchar('0'); }
    if(p < 5) { putchar('1'); }
    else putchar('2');
    if(p < 10) g = 'd';
    if(p < 5) putchar('3');
    else putchar('4');
    return(g);
}
main() putchar(grade(60));
