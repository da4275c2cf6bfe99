main() {
    auto v;
    v = getvec(10);
    v[0] = 1;
}
