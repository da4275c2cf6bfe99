main() {
    auto v 5, i;
    i = 2;
    v[i = 0;
    printn(v[2], 10);
}
