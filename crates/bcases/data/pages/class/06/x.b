main() {
    auto v 3, i;
    i = 1;
    v[4] = 2;
    printn(i, 10);
}
