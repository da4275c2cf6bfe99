msg "ab";

main() {
    extrn msg;
    auto p, q;
    p = "";
    if(*p == 0) putchar('n');
    q = p;
    while(*q) q++;
    putchar(*msg);
}
