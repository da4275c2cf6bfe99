main() {
    auto v 9, i;
    i = 1;
    v[(i + 1)] = v[(i + 2);
    putchar(v[0]);
}
