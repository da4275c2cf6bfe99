main() {
    auto i, v 1, a, b;
    i = 0;
    while(i < 4)
        v[i++] = 7;
    printn(a + b, 10);
}
