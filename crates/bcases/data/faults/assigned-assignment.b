main() {
    auto a;
    (a = a) = 1;
}
