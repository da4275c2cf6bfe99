main() {
    auto v 2;
    v[0] = 1, v[1] = 2;
    printn(v[0] + v[1], 10);
}
