/* Nothing here is a mistake. */
total;
main() {
    auto total;
    total = 3;
    show(total);
    show(total, 10 + 6);
    line(3, 'x');
    line(3);
}
show(n, base) {
    if(base == 0)
        base = 10;
    printn(n, base);
}
line(n, c, last) {
    while(n--)
        putchar(c ? c : '-');
    if(!last)
        putchar('*n');
}
