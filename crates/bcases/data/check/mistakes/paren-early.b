main() {
    auto x;
    x = 5;
    printn((x * x)), 10);
}
