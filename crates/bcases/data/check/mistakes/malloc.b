main() {
    auto v;
    v = malloc(10);
    v[0] = 1;
}
