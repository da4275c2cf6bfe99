main() {
    auto i;
    i = n;
}
