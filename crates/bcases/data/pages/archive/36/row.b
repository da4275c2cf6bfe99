a 10;
b 20;
c 30;

main() {
    extrn a;
    auto next;

    next = &a;
    printn(*next++, 10);
    putchar(' ');
    printn(*next++, 10);
    putchar(' ');
    printn(*next, 10);
}
