main() {
    auto a, b, c;
    a = b = 3;
    c = a;
    printn(b + c, 10);
}
