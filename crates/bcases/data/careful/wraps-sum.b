main() {
    auto a, b;
    a = 32767;
    printn(a - -1 - 1, 10);
}
