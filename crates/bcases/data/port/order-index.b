main() {
    auto v 3, i;
    i = 0;
    v[i] = i++;
    return v[0];
}
