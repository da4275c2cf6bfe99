main() {
    f();
    g();
}
f() {
    auto a, b, c;
    a = b = c = 'xy';
}
g() {
    auto s 3;
    lchar(s, 0, 'h');
    printn(char(s, 1), 10);
}
