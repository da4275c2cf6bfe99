main() {
    auto s, i, n;

    s = "a b";
    i = 0;
    n = 1;
    n = (char(s, i) = ' ') + n;
    printn(n, 10);
}
