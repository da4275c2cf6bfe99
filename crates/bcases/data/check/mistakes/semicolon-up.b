main() {
    auto n;
    n = 'a';
    n++
    putchar(n);
}
