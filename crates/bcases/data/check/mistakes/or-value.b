main() {
    auto i, j;
    i = 4;
    j = 2;
    i = i || j;
    printn(i, 10);
}
