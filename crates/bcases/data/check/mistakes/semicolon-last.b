main() {
    auto x;
    x = 1 }
}
