main() {
    auto i, v 1;
    i = 0;
    v[i++] = i;
    printn(v[0], 10);
}
