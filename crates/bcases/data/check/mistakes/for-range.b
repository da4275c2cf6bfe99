main() {
    auto i;
    for i in range(1, 6):
        printn(i, 10);
}
