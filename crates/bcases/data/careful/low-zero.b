main() {
    auto p;
    p = 0;
    putchar('x');
    printn(*p, 10);
}
