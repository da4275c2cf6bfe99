main() {
    auto a;
    a = 1;
    printn(a++ + a++, 10);
    return a;
}
