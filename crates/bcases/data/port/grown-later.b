main() {
    auto i, v[9];
    for(i = 0; i < 5; i++)
        v[2 * i] = i;
    printn(3 * v[2], 10);
}
