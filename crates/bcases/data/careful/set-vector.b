main() {
    auto v 3;
    v[0] = 1;
    v[2] = 3;
    printn(v[0] + v[2], 10);
    printn(v[1], 10);
}
