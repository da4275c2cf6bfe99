main() {
    auto v 9;
    memset(v, 0, 10);
    printn(v[9], 10);
}
