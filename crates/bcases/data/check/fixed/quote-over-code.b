main() {
    auto s, i;

    s = "one; i = 0; while(i < 3) putchar(char(s, i++));
}
