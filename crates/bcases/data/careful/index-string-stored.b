main() {
    auto s;
    s = "abc";
    lchar(s, 2, 'x');
    putchar(char(s, 2));
    lchar(s, 4, 'y');
}
