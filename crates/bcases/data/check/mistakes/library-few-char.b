main() {
    auto s;
    s = "abc";
    putchar(char(s));
}
