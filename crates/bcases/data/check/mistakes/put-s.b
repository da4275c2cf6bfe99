main() {
    auto s, v 5, w 2;
    s = "abc";
    w[0] = 1;
    printn(s, 10);
    putchar(s);
    printn(v, 10);
    printn(w, 10);
}
