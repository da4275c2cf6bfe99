main() {
    auto s, i;
    s = "abc";
    i = 1;
    putchar(char(s, i]);
}
