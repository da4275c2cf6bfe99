main() {
    auto c;
    while((c = getchar()) != EOF)
        putchar(c);
}
