main() {
    auto i = 0;
    printn(i, 10);
}
