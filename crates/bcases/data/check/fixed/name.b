main() {
    auto c, d;
    d = getchar();
    if(c = d)
        putchar(c);
}
