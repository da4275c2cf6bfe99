main() {
    auto a;
    a = 1;
    !a == 1;
}
