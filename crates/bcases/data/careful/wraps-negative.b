main() {
    auto a;
    a = 0100000;
    printn(a + 1, 10);
    printn(a - 1, 10);
}
