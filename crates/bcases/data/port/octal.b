main() {
    auto c;
    c = '\033';
    if(c != '\012') putchar('\7');
    putchar('\000');
    printn(c == '\r', 10);
    x("a\012b\011c\0");
    x("\0331");
}
x(s) putchar(char(s, 1));
