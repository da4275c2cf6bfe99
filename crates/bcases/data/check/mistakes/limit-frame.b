main() {
    auto v 32767;
    v[0] = 1;
}
