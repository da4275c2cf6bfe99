main() {
    auto s;
    s = "say \"hello\"";
    putchar(char(s, 0));
}
