main() {
    auto i, n;
    i = 'a';
    putchar(n);
}
