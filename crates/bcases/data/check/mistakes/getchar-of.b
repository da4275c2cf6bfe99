main() {
    auto c;
    getchar(c);
    putchar(c);
}
