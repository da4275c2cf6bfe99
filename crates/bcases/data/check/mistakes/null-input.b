main() {
    auto c;

    while((c = getchar()) != NULL)
        putchar(c);
}
