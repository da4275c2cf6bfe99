main() {
    auto s 3;
    lchar(s, 3, 'h');
    putchar(char(s, 3));
    putchar(char(s, 2));
}
