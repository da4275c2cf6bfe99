main() {
    auto v 5, i, x;

    i = 1;
    v[1] = v[2] = 3;
    x = v[i + 1;
    printn(x, 10);
}
