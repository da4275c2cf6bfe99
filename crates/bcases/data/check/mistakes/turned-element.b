main() {
    auto v 2;
    v[0] = 3;
    v[1] = 20;
    v[0] * 60 + v[1] = v[2];
    printn(v[2], 10);
}
