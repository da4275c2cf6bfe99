main() {
    auto s;
    s = "ab" "cd";
    putchar(char(s, 0));
}
