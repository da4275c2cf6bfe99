main() {
    auto a, b;
    a = 1;
    b = 2;
    a, b = b, a;
    printn(a, b);
}
