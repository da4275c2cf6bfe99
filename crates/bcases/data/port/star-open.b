main() {
    auto x;
    x = "*";
    x += 1;
}
