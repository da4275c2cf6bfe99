main() {
    auto x;
    x = 1 @ 2;
    x += 2;
}
