main() {
    auto v 2;
    lchar(v, 0, 'a');
    putchar(char(v, 0));
    putchar(char(v, 2));
}
