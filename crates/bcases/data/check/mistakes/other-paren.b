main() {
    auto i;
    i = 'a';
    putchar(i];
}
