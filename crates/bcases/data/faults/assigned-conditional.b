main() {
    auto a;
    (a ? a : a) = 1;
}
