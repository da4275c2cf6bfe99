main() {
    auto v 1, c;
    c = getchar();
    v[2] = c;
}
