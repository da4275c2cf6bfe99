main() {
    auto s, i;
    s = "ab";
    i = 0;
    while(i < 9) putchar(char(s, i++) + 1);
}
