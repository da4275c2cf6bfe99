main() {
    auto a, b;

    a = 1;
    b = 2;
    printn(a  b ? a : b, 10);
}
