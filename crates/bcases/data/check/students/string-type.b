main() {
    string s;
    s = "abc";
    putchar(char(s, 0));
}
