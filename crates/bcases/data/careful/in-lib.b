main() {
    auto v 1;
    store(v, 2);
}
