main() {
    auto i;
}
