main() {
    auto s;
    s = "abc";
    putchar(char(0, s));
}
