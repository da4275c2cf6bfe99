main() {
    auto c;
    c = getchar();
    if(c >= 'a' & <= 'z')
        putchar(c);
}
