main() {
    auto c, d;
    c = d = getchar();
    if(c = d)
        putchar(c);
    if(d = c)
        putchar(d);
}
