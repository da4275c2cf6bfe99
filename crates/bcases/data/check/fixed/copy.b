main() {
    auto c;
    while(c = getchar() != '*e')
        putchar(c);
}
