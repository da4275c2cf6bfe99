main() {
    auto a
    a = 1;
}
