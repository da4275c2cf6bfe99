main() {
    auto v 3;
    v[(1] = 2);
    v[0] += 1;
}
