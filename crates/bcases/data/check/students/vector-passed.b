main() {
    auto v 5;
    fill(v);
}
fill(v)
    v[0] = 1;
