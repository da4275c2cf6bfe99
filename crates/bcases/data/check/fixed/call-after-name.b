main() {
    auto a putchar('k');
    a = 'l';
    putchar(a);
}
