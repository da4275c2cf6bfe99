main() {
    auto s, i;
    s = "cat";
    i = 1;
    lchar(s, 'u', i);
    putchar(char(s, i));
}
