main() {
    auto s;
    s = "abcä";
    putchar(char(s, 0));
}
