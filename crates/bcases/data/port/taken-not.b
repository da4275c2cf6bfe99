main() {
    auto p, on, off, v 3;
    on = 1;
    off = !on;
    on = !on;
    p = v;
    if(!p) putchar('0');
    if(!on & !off) putchar('1');
    printn(!off, 10);
    printn(7 % 2, 10);
}
