main() {
    auto s;
    s = "hello;
    putchar(char(s, 0));
}
