main() {
    auto s;
    s = "say \"hi\"";
    putchar(char(s, 0));
}
