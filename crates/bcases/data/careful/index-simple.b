a 1;
b 2;
main() {
    extrn a;
    auto p;
    p = &a;
    printn(*p, 10);
    p++;
    *p = 5;
}
