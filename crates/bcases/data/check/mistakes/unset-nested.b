main() {
    auto a, x;
    a = 1;
    a = a ? a ? 2 : a : 3;
    printn(x, 10);
}
