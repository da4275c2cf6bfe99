main() {
    auto sum, i;
    sum = 1;
    i = 2;
    printn(sun + i, 10);
}
