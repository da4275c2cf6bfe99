main() {
    auto x;
    x = 4;
    while x > 3
        x--;
}
