main() {
    auto i;
    i = 2 3;
}
