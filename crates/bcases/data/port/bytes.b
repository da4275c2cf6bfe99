main() {
    char c, d;
    c = (char) 300;
    c = (char) 'a';
    c = (char) getchar();
    d = '\377';
    if(d == 255) putchar(c);
    d = '\177';
}
