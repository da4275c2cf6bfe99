main() {
    auto c;
    while((c = getchar()) > -1)
        putchar(c);
}
