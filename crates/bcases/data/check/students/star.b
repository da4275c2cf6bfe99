main() {
    char *s;
    s = "abc";
    putchar(char(s, 0));
}
