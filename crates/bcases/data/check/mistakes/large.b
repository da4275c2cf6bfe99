main() {
    auto big, mask;
    big = 40000;
    mask = 65535;
    if(big > 30000)
        putchar('y');
    printn(60000, 10);
    mask = mask & 40000;
    mask = 0100000;
    if(mask)
        putchar('m');
}
