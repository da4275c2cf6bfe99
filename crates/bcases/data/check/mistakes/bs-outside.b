s "a\n";
t[2] "b", "c\t", '\n';
u "c*n";
main() {
    extrn s, t, u;
    putchar(char(s, 0) + char(t[1], 0) + u);
}
