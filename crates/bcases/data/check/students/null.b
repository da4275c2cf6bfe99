main() {
    auto p;
    p = 0;
    if(p == null)
        putchar('n');
}
