main() {
    auto s;

    s = "abcd";
    printn(-1 >> 1, 10);
    putchar(' ');
    printn(1 << 18, 10);
    putchar(' ');
    putchar(s[0] & 0177);
}
