main() {
    auto a b;
    a = b = 1;
}
