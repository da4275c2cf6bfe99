main() {
    auto c;
    while((c = getchar()) != '*n')
        putchar(c);
}
