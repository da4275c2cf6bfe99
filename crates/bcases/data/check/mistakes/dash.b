main() {
    auto i;
    i = 3;
    printn(i – 1, 10);
}
