main() {
    auto v 2;

    v = {4, 5 + 1, 6};
    printn(v[0] + v[1] + v[2], 10);
}
