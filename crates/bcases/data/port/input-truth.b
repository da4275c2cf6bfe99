main() {
    auto c;
    c = getchar();
    while(c > 0) {
        putchar(c);
        c = getchar();
    }
    if(!c) putchar('.');
    return c;
}
