main() {
    auto s;
    s = "cat";
    putchar(char(s));
    putchar();
}
