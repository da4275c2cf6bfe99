main() {
    auto a, x;
    a = 1;
    x = a ? a ? 1 : 2 : 3);
    printn(x, 10);
}
