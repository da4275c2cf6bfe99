main() {
    auto i;
    i = 5
    printn(i, 10);
}
