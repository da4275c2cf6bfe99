main() {
    auto i;
    i = 3;
    printn(
        (i + 1) * 2, 10;
}
