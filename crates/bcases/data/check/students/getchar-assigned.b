main() {
    auto c;
    while(c = getchar()) putchar(c);
}
