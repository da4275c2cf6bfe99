main() {
    auto n;
    n = 3;
    putchar(char(s, n));
    int * n;
    n =* n * s;
    s = "abc";
}
